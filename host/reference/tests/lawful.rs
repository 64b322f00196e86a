//! Refusal 1: what lent memory is turned away, field by field, and what is not.

mod support;

use reference::generate::Generator;
use reference::lawful::lawful;
use reference::memory::*;
use reference::names::Name;
use reference::random::Random;
use reference::{call, Answer, Memory};
use support::*;

/// Memory with something everywhere: three mailboxes, a view with a waiting expunge and a mark, an
/// unannounced message, five groups with names.
fn rich() -> Memory {
    let mut memory = Memory::new(1024, 8, 12);
    let text = "MB 1 0x37 1 7 INBOX\n\
        MB 2 0x39 1 4 Ops/Mains\n\
        MB 9 0x00 1 4 hidden\n\
        ME 1 1 0 10\nME 1 2 1 10\nME 1 3 2 10\nME 2 5 0x1F 4294967295\nME 9 1 0 0\n\
        SE 1\n\
        FL 1 1 8\n\
        XP 1 2\n\
        RT 1 0x20\n\
        CM n NOTIFY SET (selected (MessageNew (UID FLAGS) MessageExpunge FlagChange)) \
        (subtree (Ops \"a//b\") (MessageNew MessageExpunge MailboxName)) (personal (MailboxName)) \
        (mailboxes (inbox x) (SubscriptionChange)) (inboxes NONE)\n\
        ME 1 4 0 10";
    prepare(&mut memory, text);
    assert_eq!((memory.mailbox_count, memory.message_count), (3, 6));
    assert_eq!(memory.session.groups.count, 5);
    assert_eq!(memory.session.groups.name_count, 4);
    assert_eq!(memory.messages[0].state, MARKED);
    assert_eq!(memory.messages[1].state, EXPUNGED);
    assert_eq!((memory.session.selected, memory.session.told), (1, 4));
    let counters = memory.entries().iter().map(|entry| entry.counter);
    assert_eq!(counters.collect::<Vec<u64>>(), [5, 3, 4, 2, 2, 7]);
    let counters = memory.rows().iter().map(|row| row.counter);
    assert_eq!(counters.collect::<Vec<u64>>(), [7, 2, 2]);
    memory
}

type Damage = fn(&mut Memory);

fn name(text: &str) -> Name {
    let mut name = Name::EMPTY;
    name.octets[..text.len()].copy_from_slice(text.as_bytes());
    name.len = text.len() as u8;
    name
}

/// Damaged memory is refused with 1, whatever the record, and stays as it was.
fn refused(cases: &[(&str, Damage)]) {
    let tried = records("CE 1\nCM a NOTIFY NONE\nDR 0\nSE 0\nME 1 9 0 0 9\nHEX 00\nMB 0 0 0 0 0 x");
    for (title, damage) in cases {
        let mut memory = rich();
        damage(&mut memory);
        assert!(!lawful(&memory), "{title}");
        let before = memory.clone();
        for octets in &tried {
            let answer = call(&mut memory, octets);
            let one = Answer {
                refusal: 1,
                count: None,
            };
            assert_eq!(answer, one, "{title}");
            assert!(memory == before, "{title}");
        }
    }
}

#[test]
fn counts_and_lengths() {
    refused(&[
        ("short queue", |memory| memory.queue.truncate(1023)),
        ("long queue", |memory| memory.queue.resize(65537, 0)),
        ("long table of mailboxes", |memory| {
            memory.mailboxes.resize(65, Mailbox::default())
        }),
        ("long table of messages", |memory| {
            memory.messages.resize(1025, Message::default())
        }),
        ("rows past the table", |memory| memory.mailbox_count = 9),
        ("entries past the table", |memory| memory.message_count = 13),
        ("rows not counted", |memory| memory.mailbox_count = 0),
        ("a zero row counted", |memory| memory.mailbox_count = 4),
        ("a zero entry counted", |memory| memory.message_count = 7),
        ("huge count", |memory| memory.message_count = usize::MAX),
        ("filled past the queue", |memory| memory.filled = 1025),
        ("filled into the reserve", |memory| memory.filled = 961),
        ("filled past all", |memory| memory.filled = usize::MAX),
    ]);
}

#[test]
fn mailboxes() {
    refused(&[
        ("id 0", |memory| memory.mailboxes[2].id = 0),
        ("id shared", |memory| memory.mailboxes[2].id = 2),
        ("id of the selected gone", |memory| {
            memory.mailboxes[0].id = 3
        }),
        ("attribute bit 6", |memory| {
            memory.mailboxes[1].attributes |= 0x40
        }),
        ("attribute bit 7", |memory| {
            memory.mailboxes[1].attributes |= 0x80
        }),
        ("UIDVALIDITY 0", |memory| {
            memory.mailboxes[1].uid_validity = 0
        }),
        ("UIDNEXT 0", |memory| memory.mailboxes[1].uid_next = 0),
        ("UIDNEXT at a UID", |memory| {
            memory.mailboxes[1].uid_next = 5
        }),
        ("UIDNEXT below the view", |memory| {
            memory.mailboxes[0].uid_next = 3
        }),
        ("counter 0", |memory| memory.mailboxes[2].counter = 0),
        ("counter 2^63", |memory| {
            memory.mailboxes[2].counter = COUNTER_MOST + 1
        }),
        ("counter 2^64 - 1", |memory| {
            memory.mailboxes[2].counter = u64::MAX
        }),
        ("counter below a message's", |memory| {
            memory.mailboxes[1].counter = 1
        }),
        ("counter below the expunged one's", |memory| {
            memory.messages[0].counter = 1;
            memory.messages[2].counter = 1;
            memory.messages[5].counter = 1;
            memory.mailboxes[0].counter = 2;
        }),
        ("empty name", |memory| {
            memory.mailboxes[1].name = Name::EMPTY
        }),
        ("length 0", |memory| memory.mailboxes[1].name.len = 0),
        ("shorter length", |memory| memory.mailboxes[1].name.len = 3),
        ("longer length", |memory| memory.mailboxes[1].name.len = 10),
        ("length 65", |memory| memory.mailboxes[1].name.len = 65),
        ("length 255", |memory| memory.mailboxes[1].name.len = 255),
        ("length 65 of a full name", |memory| {
            memory.mailboxes[1].name = name(&"a".repeat(64));
            memory.mailboxes[1].name.len = 65
        }),
        ("octet behind the name", |memory| {
            memory.mailboxes[1].name.octets[63] = b'x'
        }),
        ("empty part", |memory| {
            memory.mailboxes[1].name.octets[2] = b'/'
        }),
        ("slash in front", |memory| {
            memory.mailboxes[1].name.octets[0] = b'/'
        }),
        ("slash at the end", |memory| {
            memory.mailboxes[1].name.octets[8] = b'/'
        }),
        ("octet 0x1F", |memory| {
            memory.mailboxes[1].name.octets[0] = 0x1F
        }),
        ("octet 0x7F", |memory| {
            memory.mailboxes[1].name.octets[0] = 0x7F
        }),
        ("octet 0x80", |memory| {
            memory.mailboxes[1].name.octets[0] = 0x80
        }),
        ("INBOX not folded", |memory| {
            memory.mailboxes[0].name = name("inbox")
        }),
        ("name shared", |memory| {
            memory.mailboxes[2].name = name("INBOX")
        }),
        ("name shared beside", |memory| {
            memory.mailboxes[2].name = name("Ops/Mains")
        }),
    ]);
}

#[test]
fn messages() {
    refused(&[
        ("id 0", |memory| memory.messages[3].mailbox = 0),
        ("unknown id", |memory| memory.messages[3].mailbox = 3),
        ("UID 0", |memory| memory.messages[3].uid = 0),
        ("UID at UIDNEXT", |memory| memory.messages[3].uid = 6),
        ("top UID", |memory| {
            memory.messages[3].uid = u32::MAX;
            memory.mailboxes[1].uid_next = u32::MAX;
        }),
        ("flag bit 5", |memory| memory.messages[3].flags = 0x20),
        ("flag bit 7", |memory| memory.messages[3].flags |= 0x80),
        ("counter 0", |memory| memory.messages[3].counter = 0),
        ("counter above", |memory| memory.messages[3].counter = 3),
        ("counter above, another's higher", |memory| {
            memory.messages[3].counter = 7
        }),
        ("counter above, marked", |memory| {
            memory.messages[0].counter = 8
        }),
        ("counter above, expunged", |memory| {
            memory.messages[1].counter = 8
        }),
        ("counter 0, expunged", |memory| {
            memory.messages[1].counter = 0
        }),
        ("counter 2^63", |memory| {
            memory.mailboxes[1].counter = COUNTER_MOST;
            memory.messages[3].counter = COUNTER_MOST + 1;
        }),
        ("counter 2^64 - 1", |memory| {
            memory.messages[3].counter = u64::MAX
        }),
        ("state 3", |memory| memory.messages[0].state = 3),
        ("state 4", |memory| memory.messages[0].state = 4),
        ("state 0x81", |memory| memory.messages[1].state = 0x81),
        ("expunged elsewhere", |memory| {
            memory.messages[3].state = EXPUNGED
        }),
        ("marked elsewhere", |memory| {
            memory.messages[3].state = MARKED
        }),
        ("expunged unannounced", |memory| {
            memory.messages[5].state = EXPUNGED
        }),
        ("marked unannounced", |memory| {
            memory.messages[5].state = MARKED
        }),
        ("UID shared", |memory| memory.messages[2].uid = 1),
        ("UID shared with the expunged", |memory| {
            memory.messages[2].uid = 2
        }),
        ("mailbox and UID shared", |memory| {
            memory.messages[3] = memory.messages[0];
            memory.messages[3].state = 0;
        }),
    ]);
}

#[test]
fn view() {
    refused(&[
        ("unknown selected", |memory| memory.session.selected = 3),
        ("another selected", |memory| memory.session.selected = 2),
        ("none selected", |memory| memory.session.selected = 0),
        ("told above UIDNEXT", |memory| memory.session.told = 6),
        ("told at the expunged", |memory| memory.session.told = 2),
        ("told 0", |memory| memory.session.told = 0),
        ("told with none selected", |memory| {
            memory.messages[0].state = 0;
            memory.messages[1].state = 0;
            memory.session.selected = 0;
        }),
    ]);
}

#[test]
fn groups() {
    fn group(memory: &mut Memory, place: usize) -> &mut Group {
        &mut memory.session.groups.group[place]
    }
    refused(&[
        ("mode 3", |memory| memory.session.mode = 3),
        ("groups before the first NOTIFY", |memory| {
            memory.session.mode = FRESH
        }),
        ("groups after NONE", |memory| memory.session.mode = NONE),
        ("a set without groups", |memory| {
            memory.session.groups = Groups::default()
        }),
        ("ninth group", |memory| memory.session.groups.count = 9),
        ("group count 255", |memory| {
            memory.session.groups.count = 255
        }),
        ("a zero group counted", |memory| {
            memory.session.groups.count = 6
        }),
        ("a group not counted", |memory| {
            memory.session.groups.count = 4
        }),
        ("selector 0", |memory| group(memory, 2).selector = 0),
        ("selector 8", |memory| group(memory, 2).selector = IS_LEVEL),
        ("two selected groups", |memory| {
            group(memory, 4).selector = IS_DELAYED
        }),
        ("new alone", |memory| group(memory, 2).events = NEW),
        ("expunge alone", |memory| group(memory, 2).events = EXPUNGE),
        ("flags alone", |memory| group(memory, 2).events = FLAGS),
        ("flags with one", |memory| {
            group(memory, 2).events = FLAGS | NEW
        }),
        ("event bit 5", |memory| group(memory, 2).events |= 0x20),
        ("event bit 7", |memory| group(memory, 2).events |= 0x80),
        ("mailbox event of the selected", |memory| {
            group(memory, 0).events |= MAILBOX_NAME
        }),
        ("subscription of the selected", |memory| {
            group(memory, 0).events |= SUBSCRIPTION
        }),
        ("attributes elsewhere", |memory| {
            group(memory, 1).attributes = WITH_UID
        }),
        ("attributes without new", |memory| {
            group(memory, 0).events = 0
        }),
        ("attribute bit 3", |memory| group(memory, 0).attributes |= 8),
        ("no name in a subtree", |memory| {
            group(memory, 1).name_count = 0
        }),
        ("one name less", |memory| group(memory, 1).name_count = 1),
        ("one name more", |memory| group(memory, 3).name_count = 3),
        ("names elsewhere", |memory| group(memory, 3).first_name = 1),
        ("a name of personal", |memory| {
            group(memory, 2).name_count = 1
        }),
        ("a place of personal", |memory| {
            group(memory, 2).first_name = 1
        }),
        ("name count 17", |memory| {
            memory.session.groups.name_count = 17
        }),
        ("name count short", |memory| {
            memory.session.groups.name_count = 3
        }),
        ("name count long", |memory| {
            memory.session.groups.name_count = 5
        }),
        ("name not folded", |memory| {
            memory.session.groups.name[2] = name("Inbox")
        }),
        ("bad name", |memory| {
            memory.session.groups.name[0] = name("Ops/")
        }),
        ("octet in an empty name", |memory| {
            memory.session.groups.name[1].octets[0] = 1
        }),
        ("octet behind a name", |memory| {
            memory.session.groups.name[0].octets[3] = 1
        }),
        ("length 65 of a full name", |memory| {
            memory.session.groups.name[0] = name(&"a".repeat(64));
            memory.session.groups.name[0].len = 65
        }),
        ("name length 65", |memory| {
            memory.session.groups.name[0].len = 65
        }),
        ("name behind the count", |memory| {
            memory.session.groups.name[15] = name("x")
        }),
        ("group behind the count", |memory| {
            group(memory, 7).events = MAILBOX_NAME
        }),
        ("range behind the count", |memory| {
            group(memory, 5).first_name = 1
        }),
    ]);
}

/// What the list doesn't name is no reason.
#[test]
fn allowed() {
    let cases: [(&str, Damage); 18] = [
        ("as it is", |_| {}),
        ("rubbish behind the rows", |memory| {
            memory.mailboxes[7].attributes = 0xFF
        }),
        ("rubbish behind the entries", |memory| {
            memory.messages[11].uid = 77
        }),
        ("rubbish behind the filled octets", |memory| {
            memory.queue[1023] = 0xFF
        }),
        ("rubbish in the queue", |memory| memory.queue[0] = 0xFF),
        ("rows in another order", |memory| {
            memory.mailboxes.swap(0, 2)
        }),
        ("entries in another order", |memory| {
            memory.messages.swap(0, 5)
        }),
        ("selected unselectable", |memory| {
            memory.mailboxes[0].attributes &= !SELECTABLE
        }),
        ("selected unreadable", |memory| {
            memory.mailboxes[0].attributes &= !RIGHTS
        }),
        ("told lower, above the expunged", |memory| {
            memory.session.told = 3
        }),
        ("told at UIDNEXT", |memory| memory.session.told = 5),
        ("UIDNEXT far above", |memory| {
            memory.mailboxes[1].uid_next = u32::MAX
        }),
        ("counters at the top", |memory| {
            memory.mailboxes[1].counter = COUNTER_MOST;
            memory.messages[3].counter = COUNTER_MOST;
        }),
        ("an expunged one's counter as its mailbox's", |memory| {
            memory.messages[1].counter = 7
        }),
        ("counters of 1", |memory| {
            memory.mailboxes[1].counter = 1;
            memory.messages[3].counter = 1;
        }),
        ("counters of no use behind the counts", |memory| {
            memory.mailboxes[7].counter = u64::MAX;
            memory.messages[11].counter = u64::MAX;
        }),
        ("filled up to the reserve", |memory| memory.filled = 960),
        ("filled to the brim without groups", |memory| {
            memory.session.mode = NONE;
            memory.session.groups = Groups::default();
            memory.filled = 1024;
        }),
    ];
    for (title, change) in cases {
        let mut memory = rich();
        change(&mut memory);
        assert!(lawful(&memory), "{title}");
        assert_ne!(call(&mut memory, &assemble("CE 0")).refusal, 1, "{title}");
        assert!(lawful(&memory), "{title}");
    }
    // a fresh selection may have told nothing yet
    let mut memory = rich();
    memory.messages[0].state = 0;
    memory.messages[1].state = 0;
    memory.session.told = 0;
    assert!(lawful(&memory));
}

/// Whatever is written over one field of memory from a random stream: an unlawful one answers 1
/// with nothing changed, a lawful one stays lawful; nothing panics.
#[test]
fn random_damage() {
    let (mut kept, mut broken) = (0, 0);
    for seed in 0..1_500 {
        let mut random = Random::new(seed);
        let mut generator = Generator::new(random.number());
        let mut memory = Memory::new(1024, 8, 30);
        for _ in 0..60 {
            let octets = generator.propose(&memory);
            call(&mut memory, &octets);
        }
        for _ in 0..20 {
            let mut other = memory.clone();
            damage(&mut random, &mut other);
            let lawful_before = lawful(&other);
            if lawful_before {
                kept += 1;
            } else {
                broken += 1;
            }
            for _ in 0..5 {
                let before = other.clone();
                let octets = generator.propose(&memory);
                let answer = call(&mut other, &octets);
                assert_eq!(answer.refusal == 1, !lawful_before);
                assert_eq!(lawful(&other), lawful_before);
                assert!(answer.refusal == 0 || other == before);
            }
        }
    }
    println!("kept {kept}, broken {broken}");
    assert!(kept > 1_000 && broken > 1_000);
}

/// Counters at and beyond the ends, and some that lie among those of a stream.
const EDGES: [u64; 8] = [0, 1, 20, 60, 100, COUNTER_MOST, COUNTER_MOST + 1, u64::MAX];

fn damage(random: &mut Random, memory: &mut Memory) {
    let small = random.below(12);
    let octet = if random.chance(50) {
        random.octet()
    } else {
        small as u8
    };
    let row = random.below(memory.mailbox_count.max(1));
    let entry = random.below(memory.message_count.max(1));
    let group = random.below(8);
    let name = random.below(16);
    let place = random.below(64);
    let groups = &mut memory.session.groups;
    match random.below(26) {
        0 => memory.mailboxes[row].id = small as u16,
        1 => memory.mailboxes[row].attributes = octet,
        2 => memory.mailboxes[row].uid_validity = small as u32,
        3 => memory.mailboxes[row].uid_next = small as u32,
        4 => memory.mailboxes[row].name.len = octet,
        5 => memory.mailboxes[row].name.octets[place] = octet,
        6 => memory.messages[entry].mailbox = small as u16,
        7 => memory.messages[entry].uid = small as u32,
        8 => memory.messages[entry].flags = octet,
        9 => memory.messages[entry].state = octet,
        10 => memory.session.mode = octet,
        11 => memory.session.selected = small as u16,
        12 => memory.session.told = small as u32,
        13 => groups.count = octet,
        14 => groups.name_count = octet,
        15 => groups.group[group].selector = octet,
        16 => groups.group[group].events = octet,
        17 => groups.group[group].attributes = octet,
        18 => groups.group[group].first_name = octet,
        19 => groups.group[group].name_count = octet,
        20 => groups.name[name].len = octet,
        21 => groups.name[name].octets[place] = octet,
        22 => memory.filled = random.below(1100),
        23 => memory.mailboxes[row].counter = random.pick(&EDGES),
        24 => memory.messages[entry].counter = random.pick(&EDGES),
        _ => memory.mailbox_count = small,
    }
}

/// Full tables with ids drawn at random, entries in order or shuffled, and one id, name or UID that may be another's: as
/// found by trying each pair.
#[test]
fn pairs_of_full_tables() {
    let (mut kept, mut broken) = (0, 0);
    for seed in 0..2_000 {
        let mut random = Random::new(seed);
        let mut memory = full(&mut random);
        if random.chance(50) {
            for place in (1..MESSAGES).rev() {
                let other = random.below(place + 1);
                memory.messages.swap(place, other);
            }
        }
        let (one, other) = (random.below(MAILBOXES), random.below(MAILBOXES));
        let (entry, twin) = (random.below(MESSAGES), random.below(MESSAGES));
        match random.below(5) {
            0 => memory.mailboxes[one].name = memory.mailboxes[other].name,
            1 => {
                let id = memory.mailboxes[other].id;
                let held = memory.mailboxes[one].id;
                memory.mailboxes[one].id = id;
                for entry in memory.entries_mut() {
                    if entry.mailbox == held {
                        entry.mailbox = id;
                    }
                }
            }
            2 => memory.messages[entry] = memory.messages[twin],
            3 => memory.messages.swap(entry, twin),
            _ => memory.messages[entry].uid = random.between(1, 1500) as u32,
        }
        let rows = memory.rows();
        let entries = memory.entries();
        let apart = (0..rows.len()).all(|place| {
            let row = &rows[place];
            rows[..place]
                .iter()
                .all(|other| other.id != row.id && other.name != row.name)
        }) && (0..entries.len()).all(|place| {
            let entry = &entries[place];
            entries[..place]
                .iter()
                .all(|other| (other.mailbox, other.uid) != (entry.mailbox, entry.uid))
        });
        assert_eq!(lawful(&memory), apart, "seed {seed}");
        kept += usize::from(apart);
        broken += usize::from(!apart);
    }
    assert!(kept > 300 && broken > 300, "kept {kept}, broken {broken}");
}

/// 64 mailboxes and 1,024 messages, the UIDs of each mailbox rising.
fn full(random: &mut Random) -> Memory {
    let mut memory = Memory::new(1024, MAILBOXES, MESSAGES);
    for place in 0..MAILBOXES {
        let mut id = 0;
        while id == 0 || memory.mailbox(id).is_some() {
            id = random.number() as u16;
        }
        memory.mailboxes[place] = Mailbox {
            id,
            attributes: 0x3F,
            uid_validity: 1,
            uid_next: 2_000,
            counter: 1,
            name: name(&format!("box/{place}")),
        };
        memory.mailbox_count = place + 1;
    }
    for place in 0..MESSAGES {
        memory.messages[place] = Message {
            mailbox: memory.mailboxes[random.below(MAILBOXES)].id,
            uid: place as u32 + 1,
            counter: 1,
            ..Message::default()
        };
    }
    memory.message_count = MESSAGES;
    memory
}

/// A name is lawful if reading its octets gives the same again.
#[test]
fn names_as_read() {
    let mut random = Random::new(5);
    let mut kept = 0;
    for _ in 0..200_000 {
        let mut tried = Name::EMPTY;
        let len = random.pick(&[0, 1, 2, 3, 5, 5, 63, 64]);
        for octet in &mut tried.octets[..len] {
            *octet = random.pick(b"abc/~ ");
        }
        if len == 5 && random.chance(50) {
            tried = name(random.pick(&["INBOX", "inbox", "INBOx", "INBO/"]));
        }
        tried.len = len as u8;
        if random.chance(20) {
            tried.octets[random.below(64)] = random.octet();
        }
        if random.chance(10) {
            tried.len = random.octet();
        }
        let again = Name::read(tried.as_octets());
        assert_eq!(tried.is_lawful(), again == Some(tried), "{tried:?}");
        kept += usize::from(tried.is_lawful());
    }
    assert!((20_000..180_000).contains(&kept), "kept {kept}");
}
