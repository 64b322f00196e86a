//! Where the rows of a mailbox table stand, by id and by name: two open hash tables on the stack, so thin that rows seldom
//! collide.

use crate::memory::{Mailbox, MAILBOXES};
use crate::names::Name;

const SLOTS: usize = 16 * MAILBOXES;

pub struct Places {
    ids: [u16; MAILBOXES],
    /// One more than a row's place; 0 is free.
    by_id: [u8; SLOTS],
}

impl Places {
    /// None where two of the rows, 64 at most, share an id or a name.
    pub fn of(rows: &[Mailbox]) -> Option<Places> {
        let mut ids = [0; MAILBOXES];
        let mut by_id = [0; SLOTS];
        let mut by_name = [0; SLOTS];
        for (place, row) in rows.iter().enumerate() {
            ids[place] = row.id;
            enter(&mut by_id, id_slot(row.id), place, |other| {
                rows[other].id == row.id
            })?;
            enter(&mut by_name, name_slot(&row.name), place, |other| {
                rows[other].name == row.name
            })?;
        }
        Some(Places { ids, by_id })
    }

    pub fn find(&self, id: u16) -> Option<usize> {
        let mut slot = id_slot(id);
        loop {
            let place = usize::from(self.by_id[slot]).checked_sub(1)?;
            if self.ids[place] == id {
                return Some(place);
            }
            slot = next(slot);
        }
    }
}

/// Takes the first free slot from `slot` on, if no row met on the way is the same.
fn enter(
    slots: &mut [u8; SLOTS],
    mut slot: usize,
    place: usize,
    same: impl Fn(usize) -> bool,
) -> Option<()> {
    while slots[slot] != 0 {
        if same(usize::from(slots[slot]) - 1) {
            return None;
        }
        slot = next(slot);
    }
    slots[slot] = place as u8 + 1;
    Some(())
}

fn next(slot: usize) -> usize {
    (slot + 1) % SLOTS
}

fn id_slot(id: u16) -> usize {
    usize::from(id.wrapping_mul(0x9E37) >> 6) % SLOTS
}

/// All octets count: what lies behind a lawful name is zero.
fn name_slot(name: &Name) -> usize {
    let mut mixed = 0u64;
    for part in name.octets.chunks_exact(8) {
        let part = part
            .iter()
            .rev()
            .fold(0, |all, &octet| all << 8 | u64::from(octet));
        mixed = (mixed.rotate_left(5) ^ part).wrapping_mul(0x9E37_79B9_7F4A_7C15);
    }
    (mixed >> 32) as usize % SLOTS
}
