//! Streams about a selected mailbox of few messages beside a queue that is seldom empty: much of
//! what happens in them waits, overflows or is dropped.

use super::counted;
use reference::random::Random;
use reference::Memory;

const ALL: &str = "(MessageNew MessageExpunge FlagChange)";

pub struct Crowded {
    random: Random,
    step: usize,
    /// No NOTIFY comes before this step, so that marks are made.
    first_notify: usize,
    /// Percent of the steps that fill the queue while there is room.
    filling: usize,
    /// What comes next whatever chance says, the last first.
    planned: Vec<String>,
}

impl Crowded {
    pub fn new(seed: u64) -> Crowded {
        let mut random = Random::new(seed);
        let opening = "SE 1\nME 1 2 0 0\nME 1 1 0 0\nMB 3 0x30 1 1 e\nMB 2 0x33 1 1 c/d\n\
                       MB 1 0x33 1 1 b";
        Crowded {
            step: 0,
            first_notify: random.pick(&[7, 15, 40, 1000]),
            filling: random.pick(&[0, 40, 70]),
            planned: opening.lines().map(String::from).collect(),
            random,
        }
    }

    /// The next octet string for this memory.
    pub fn propose(&mut self, memory: &Memory) -> Vec<u8> {
        self.step += 1;
        if self.step == self.first_notify && self.random.chance(60) {
            // asked while a right is missing, so that the mark outlives it
            let (mark, asked) = (self.message(memory), format!("(selected {ALL})"));
            let plan = format!("RT 1 0x30\nCM n NOTIFY SET {asked}\nRT 1 0x20\nFL {mark} 3");
            self.planned = plan.lines().map(String::from).collect();
        }
        let text = self.planned.pop();
        counted(memory, &text.unwrap_or_else(|| self.record(memory)))
    }

    fn record(&mut self, memory: &Memory) -> String {
        if self.random.chance(self.filling) && memory.room() > 50 && memory.queue.len() < 3000 {
            return self.filler(memory.room());
        }
        let (flags, bit) = (self.random.below(32), self.random.below(2));
        //                             ME  XP  FL RT SE CE NOTIFY DR others
        match self.random.weighed(&[18, 14, 18, 8, 2, 9, 10, 5, 10]) {
            0 => self.arrival(memory, flags),
            1 => format!("XP {}", self.message(memory)),
            2 => format!("FL {} {flags}", self.message(memory)),
            3 => {
                let rights = self.random.pick(&[0x30, 0x30, 0x30, 0x20, 0x10, 0]);
                format!("RT 1 {rights}")
            }
            4 => format!("SE {}", self.random.pick(&[1, 1, 1, 2, 0])),
            5 => format!("CE {bit}"),
            6 if self.step < self.first_notify => format!("CE {bit}"),
            6 => self.notify(),
            7 => format!("DR {}", self.random.between(0, memory.filled)),
            _ => self.other(bit),
        }
    }

    /// A command whose answer takes some room: much of much, or all but a few octets.
    fn filler(&mut self, room: usize) -> String {
        if room > 160 {
            return "CM t NOTIFY SET (personal (Foo))".to_string();
        }
        let left = self.random.pick(&[10, 25, 45]);
        let left = self.random.below(left);
        let octets = (room - left.min(room)).saturating_sub(14).clamp(1, 32);
        format!("CM {} X", "t".repeat(octets))
    }

    /// Mostly a new message of the selected mailbox; a few of them are enough.
    fn arrival(&mut self, memory: &Memory, flags: usize) -> String {
        let id = self.random.pick(&[1, 1, 1, 2]);
        let next = memory.mailbox(id).map_or(1, |row| row.uid_next);
        if memory.count_in(id) > 5 {
            return format!("XP {}", self.message(memory));
        }
        format!("ME {id} {} {flags} 7", next + self.random.below(2) as u32)
    }

    /// Id and UID of an entry, whatever has become of it; older ones are mostly known.
    fn message(&mut self, memory: &Memory) -> String {
        let entries = memory.entries();
        let among = self.random.pick(&[entries.len(), 2]);
        match entries.get(self.random.below(among)) {
            Some(entry) => format!("{} {}", entry.mailbox, entry.uid),
            None => "1 1".to_string(),
        }
    }

    fn notify(&mut self) -> String {
        let with = "(MessageNew (UID FLAGS) MessageExpunge FlagChange)";
        let two = "(MessageNew (RFC822.SIZE) MessageExpunge)";
        let named = "(MessageNew MessageExpunge FlagChange MailboxName SubscriptionChange)";
        let few = "(MessageNew MessageExpunge MailboxName)";
        let groups = match self.random.below(9) {
            0 => return "CM n NOTIFY NONE".to_string(),
            1 => "(selected NONE)".to_string(),
            2 => format!("(personal {named}) (mailboxes c (MailboxName))"),
            3 => format!("(mailboxes e (MailboxName)) (selected {two})"),
            4 => format!("(selected-delayed {with})"),
            5 => format!("(selected-delayed {ALL}) (mailboxes (c/d c e) {few})"),
            6 => format!("(selected {ALL}) (personal {named})"),
            _ => format!("(selected {with}) (inboxes {named})"),
        };
        let status = self.random.pick(&["", "STATUS "]);
        format!("CM n NOTIFY SET {status}{groups}")
    }

    /// Records about mailboxes, the selected one among them.
    fn other(&mut self, bit: usize) -> String {
        let id = self.random.pick(&[1, 2, 2, 3]);
        let name = self.random.pick(&["b", "c/d", "c", "e"]);
        let attributes = self.random.pick(&[0x33, 0x30, 0x11, 0x39]);
        let quiet = u8::from(self.random.chance(20));
        match self.random.below(7) {
            0 | 1 => format!("MB {} {attributes} {quiet} 1 {name}", id.max(2)),
            2 => format!("DL {id} {quiet}"),
            3 | 4 => format!("RN {id} {quiet} {name}"),
            5 => format!("SB {id} {bit} {quiet}"),
            _ => {
                let rights = self.random.pick(&[0x30, 0x30, 0x20, 0]);
                format!("RT {} {rights}", id.max(2))
            }
        }
    }
}
