//! The selected mailbox: the client's view, what waits for it, and `SE` and `CE`.

use crate::lines::{self, Out};
use crate::memory::*;

/// Places of a mailbox's entries in the table, by UID. The table's own order is not relied on.
pub fn by_uid(memory: &Memory, mailbox: u16) -> Vec<u16> {
    let entries = memory.entries();
    let mut places: Vec<u16> = (0..entries.len() as u16)
        .filter(|&place| entries[place as usize].mailbox == mailbox)
        .collect();
    // entries that came by `ME` already stand so
    if !places.is_sorted_by_key(|&place| entries[place as usize].uid) {
        places.sort_unstable_by_key(|&place| entries[place as usize].uid);
    }
    places
}

/// The place of a UID in its mailbox, counted from 1, expunged entries before it included.
pub fn number_of(memory: &Memory, mailbox: u16, uid: u32) -> u32 {
    memory
        .entries()
        .iter()
        .filter(|entry| entry.mailbox == mailbox && entry.uid <= uid)
        .count() as u32
}

/// The selected mailbox while both rights are held: only then is anything owed.
pub fn open(memory: &Memory) -> Option<&Mailbox> {
    memory.selected().filter(|row| row.has(RIGHTS))
}

/// `SE`: what waited is dropped, and the view is all there is.
pub fn select(memory: &mut Memory, id: u16) {
    memory.keep_entries(|entry| !entry.is_expunged());
    for entry in memory.entries_mut() {
        entry.state = 0;
    }
    memory.session.selected = id;
    memory.session.told = memory.selected().map_or(0, |row| row.uid_next);
}

/// What a command's end wrote, as the change it makes, and how many lines it left.
#[derive(Clone, Copy, Default, PartialEq, Eq, Debug)]
pub struct Owed {
    pub left: u32,
    /// Expunged entries with a UID below this were told.
    expunged_below: u32,
    /// EXISTS was written.
    announced: bool,
    /// Marks on UIDs below this were told.
    fetched_below: u32,
}

/// Lines from the front: the first that doesn't fit shuts out the rest.
struct Front<'a> {
    out: &'a mut Out,
    room: usize,
    shut: bool,
    left: u32,
}

impl Front<'_> {
    fn line(&mut self, write: impl FnOnce(&mut Out)) -> bool {
        if !self.shut {
            let before = self.out.len();
            write(self.out);
            if self.out.len() <= self.room {
                return true;
            }
            self.out.truncate(before);
            self.shut = true;
        }
        self.left += 1;
        false
    }
}

/// Writes what the end of a command of this class owes, as far as `room` goes. Memory is not
/// changed yet: `settle` does that.
pub fn write_owed(memory: &Memory, class: u8, room: usize, out: &mut Out) -> Owed {
    let mut owed = Owed::default();
    let Some(row) = open(memory) else {
        return owed;
    };
    let entries = memory.entries();
    let told = memory.session.told;
    let waits = |entry: &Message| entry.state != 0 || entry.uid >= told;
    if !entries
        .iter()
        .any(|entry| entry.mailbox == row.id && waits(entry))
    {
        return owed;
    }
    let places = by_uid(memory, row.id);
    let listed = || (1..).zip(places.iter().map(|&place| &entries[place as usize]));
    let mut front = Front {
        out,
        room,
        shut: false,
        left: 0,
    };
    let mut gone = 0;
    if class == 1 {
        for (place, entry) in listed().filter(|(_, entry)| entry.is_expunged()) {
            if front.line(|out| lines::expunge(out, place - gone)) {
                gone += 1;
                owed.expunged_below = entry.uid + 1;
            }
        }
    }
    if listed().any(|(_, entry)| entry.uid >= told) {
        owed.announced = front.line(|out| lines::exists(out, places.len() as u32 - gone));
    }
    let mut before = 0;
    for (place, entry) in listed() {
        if entry.is_expunged() && class == 1 {
            before += 1;
        }
        if entry.is_marked()
            && front.line(|out| lines::fetch(out, place - before, WITH_UID | WITH_FLAGS, entry))
        {
            owed.fetched_below = entry.uid + 1;
        }
    }
    owed.left = front.left;
    owed
}

/// The change that goes with lines written by `write_owed`.
pub fn settle(memory: &mut Memory, owed: &Owed) {
    if owed.expunged_below > 0 {
        memory.keep_entries(|entry| !(entry.is_expunged() && entry.uid < owed.expunged_below));
    }
    if owed.announced {
        memory.session.told = memory.selected().map_or(0, |row| row.uid_next);
    }
    if owed.fetched_below > 0 {
        for entry in memory.entries_mut() {
            if entry.uid < owed.fetched_below {
                entry.state &= !MARKED;
            }
        }
    }
}

/// `CE`: the lines still owed to the class afterwards.
pub fn command_ended(memory: &mut Memory, class: u8) -> u32 {
    let mut out = Out::new();
    let owed = write_owed(memory, class, memory.room(), &mut out);
    settle(memory, &owed);
    memory.append(&out);
    owed.left
}
