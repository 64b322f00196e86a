//! Pairs of runs: bob, and what alice does in folders that he sees, are the same in both; what she does in folders that he may
//! neither list nor read is not. Every octet that his socket brings must be the same, the host's own answers among them.

mod support;

use support::{append, Chance, Client, Server};

const PAIRS: u64 = 100;
const STEPS: usize = 80;

/// The last lies beneath one that he may not see.
const SEEN: [&str; 3] = ["Shared/Open", "Shared/Alarms", "Shared/Up/Sight"];

/// The notice of that one, when Sight comes or goes: the same whether it is there or not.
const PARENT: &str = "* LIST (\\NonExistent) \"/\" \"Shared/Up\"";

/// What bob says of folders that may or may not be there.
const PRYING: [&str; 30] = [
    "STATUS Shared/Hid1 (MESSAGES)",
    "SELECT Shared/Hid1",
    "EXAMINE Shared/Hid2",
    "CREATE Shared/Hid1",
    "CREATE Shared/Hid1/below",
    "DELETE Shared/Hid1",
    "RENAME Shared/Hid1 Shared/q",
    "RENAME Shared/Open Shared/Hid1",
    "RENAME Shared/Open Shared/Hid2/x",
    "RENAME mine Shared/Hid1",
    "SUBSCRIBE Shared/Hid2",
    "UNSUBSCRIBE Shared/Hid2",
    "GETACL Shared/Hid1",
    "SETACL Shared/Hid1 bob lr",
    "DELETEACL Shared/Hid2 bob",
    "MYRIGHTS Shared/Hid2",
    "COPY 1 Shared/Hid1",
    "LIST \"\" *",
    "LIST \"\" \"Shared/%\" RETURN (CHILDREN SUBSCRIBED STATUS (MESSAGES UIDVALIDITY HIGHESTMODSEQ))",
    "LSUB \"\" *",
    "ESEARCH IN (mailboxes (Shared/Hid1 Shared/Hid2 Shared/Open) subtree Shared personal) RETURN (COUNT ALL) ALL",
    "LIST \"\" %",
    "LIST \"\" (\"%/%\" \"Shared/%/%\")",
    "LSUB \"\" Shared/%",
    "SUBSCRIBE Shared/Up/Sight",
    "LISTRIGHTS Shared/Hid2 bob",
    "STATUS Shared/Hid1 (NOSUCH)",
    "SETACL Shared/Hid2 anyone q",
    "MYRIGHTS Shared/Up",
    "CAPABILITY",
];

const WATCHES: [&str; 4] = [
    "NOTIFY SET STATUS (selected (MessageNew (UID FLAGS) MessageExpunge FlagChange)) \
     (subtree Shared (MessageNew MessageExpunge FlagChange MailboxName SubscriptionChange))",
    "NOTIFY SET (selected-delayed (MessageNew MessageExpunge FlagChange)) \
     (mailboxes (Shared/Hid1 Shared/Hid2 Shared/Open) (MessageNew MessageExpunge MailboxName))",
    "NOTIFY SET (personal (MessageNew MessageExpunge MailboxName)) (subscribed (MessageNew MessageExpunge))",
    "NOTIFY NONE",
];

const OWN: [&str; 9] = [
    "NOOP",
    "FETCH 1:* (FLAGS UID)",
    "UID FETCH 1:* (FLAGS)",
    "SEARCH ALL",
    "UID SEARCH UNSEEN",
    "FETCH 1:* (MODSEQ) (CHANGEDSINCE 3)",
    "STORE 1 +FLAGS (\\Answered)",
    "EXPUNGE",
    "UNSELECT",
];

struct Hidden {
    chance: Chance,
    names: Vec<String>,
    commands: usize,
}

impl Hidden {
    fn run(&mut self, alice: &mut Client, command: &str) {
        self.commands += 1;
        alice.run(command);
    }

    /// A name that bob may know, of a folder that he may not.
    fn name(&mut self) -> String {
        let upper = ["Shared", "Shared", "Shared/Open", "Shared/Deep/er"];
        let upper = self.chance.of(&upper);
        format!("{upper}/Hid{}", self.chance.below(20))
    }

    /// Something that bob must not hear of.
    fn act(&mut self, alice: &mut Client, carol: &mut Client) {
        let kind = self.chance.below(20);
        if kind < 5 || self.names.is_empty() {
            let name = self.name();
            self.run(alice, &format!("CREATE {name}"));
            return self.names.push(name);
        }
        let place = self.chance.below(self.names.len());
        let name = self.names[place].clone();
        match kind {
            5..=10 => {
                for _ in 0..=self.chance.below(20) {
                    self.run(alice, &append(&name));
                }
            }
            11 | 12 => {
                let new = self.name();
                self.run(alice, &format!("RENAME {name} {new}"));
                self.names[place] = new;
            }
            13 | 14 => {
                self.run(alice, &format!("DELETE {name}"));
                self.names.remove(place);
            }
            15 | 16 => {
                self.run(alice, &format!("SELECT {name}"));
                self.run(alice, "STORE 1:* +FLAGS (\\Deleted)");
                self.run(alice, "EXPUNGE");
                self.run(alice, "UNSELECT");
            }
            17 => self.run(alice, &format!("SETACL {name} carol lr")),
            18 if self.chance.below(2) == 0 => {
                let word = self.chance.of(&["CREATE", "DELETE"]);
                self.run(alice, &format!("{word} Shared/Up"));
            }
            18 => self.run(carol, &append("INBOX")),
            _ => self.run(carol, "CREATE mine"),
        }
    }
}

/// Alice, where bob may hear of it if he has the rights.
fn act_seen(alice: &mut Client, chance: &mut Chance) {
    let name = chance.of(&SEEN);
    match chance.below(8) {
        0..=2 => drop(alice.run(&append(name))),
        3 | 4 => {
            let flags = chance.of(&["\\Seen", "\\Flagged", ""]);
            alice.run(&format!("SELECT {name}"));
            alice.run(&format!("STORE 1:2 FLAGS ({flags})"));
            alice.run("UNSELECT");
        }
        5 => {
            alice.run(&format!("SELECT {name}"));
            alice.run("STORE 1 +FLAGS (\\Deleted)");
            alice.run("EXPUNGE");
            alice.run("UNSELECT");
        }
        6 => {
            let rights = chance.of(&["lrswite", "lrswite", "l", "r", "lr", "\"\""]);
            let user = chance.of(&["bob", "bob", "bob", "anyone"]);
            alice.run(&format!("SETACL {name} {user} {rights}"));
        }
        _ => {
            alice.run(&format!("DELETEACL {name} bob"));
            alice.run(&format!("DELETEACL {name} anyone"));
        }
    }
}

fn act_bob(bob: &mut Client, chance: &mut Chance, made: &mut usize) {
    match chance.below(12) {
        0..=2 => drop(bob.run(chance.of(&PRYING))),
        3 | 4 => drop(bob.run(chance.of(&WATCHES))),
        5 | 6 => {
            let word = chance.of(&["SELECT", "EXAMINE"]);
            let name = chance.of(&[
                "Shared/Open",
                "Shared/Alarms",
                "INBOX",
                "mine",
                "Shared/Hid1",
            ]);
            bob.run(&format!("{word} {name}"));
        }
        7 => {
            *made += 1;
            bob.run(&format!("CREATE mine{made}"));
            bob.run(&format!(
                "STATUS mine{made} (UIDVALIDITY UIDNEXT HIGHESTMODSEQ)"
            ));
        }
        8 => drop(bob.run(&append(chance.of(&["INBOX", "Shared/Hid1", "Shared/Open"])))),
        _ => drop(bob.run(chance.of(&OWN))),
    }
}

/// One run: all that bob gets, and how many hidden commands there were.
fn run(seed: u64, hidden_seed: u64, most: usize) -> (String, usize) {
    let server = Server::start();
    let (mut alice, mut carol) = (server.log_in("alice"), server.log_in("carol"));
    let mut chance = Chance::new(seed);
    let mut hidden = Hidden {
        chance: Chance::new(hidden_seed),
        names: Vec::new(),
        commands: 0,
    };
    for name in SEEN {
        alice.ok(&format!("CREATE {name}"));
        alice.ok(&format!("SETACL {name} bob lrswite"));
    }
    let mut bob = server.log_in("bob");
    bob.ok("CREATE mine");
    let mut made = 0;
    for _ in 0..STEPS {
        for _ in 0..hidden.chance.below(most + 1) {
            hidden.act(&mut alice, &mut carol);
        }
        match chance.below(5) {
            0..=2 => act_bob(&mut bob, &mut chance, &mut made),
            _ => act_seen(&mut alice, &mut chance),
        }
    }
    bob.start("LOGOUT");
    bob.all_the_rest();
    server.end();
    let octets = String::from_utf8_lossy(&bob.octets).into_owned();
    (octets, hidden.commands)
}

#[test]
fn hidden_commands_change_no_octet() {
    let (mut commands, mut notices, mut parents) = (0, 0, 0);
    for seed in 0..PAIRS {
        let (first, none) = run(seed, seed, 0);
        let (second, some) = run(seed, PAIRS + seed, 3);
        let differ = first.lines().zip(second.lines()).find(|(a, b)| a != b);
        assert_eq!(differ, None, "pair {seed}");
        assert_eq!(first.len(), second.len(), "pair {seed}");
        assert_eq!(none, 0);
        commands += some;
        let is_notice = |line: &&str| line.contains("(UIDNEXT") || line.contains("EXPUNGE");
        notices += first.lines().filter(is_notice).count();
        parents += first.lines().filter(|&line| line == PARENT).count();
    }
    assert!(
        commands > 100 * PAIRS as usize,
        "{commands} hidden commands"
    );
    assert!(notices > PAIRS as usize, "{notices} notices to bob");
    assert!(parents > 10, "{parents} notices of a hidden parent");
}
