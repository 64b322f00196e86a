//! How the exported functions are called. Nothing else here knows their names, their parameters or how a struct lies in
//! memory; `include/borjavid.h` says the same to C.

use std::mem::{align_of, offset_of, size_of};

/// A row of the mailbox table. Freed rows are zeros.
#[repr(C)]
#[derive(Clone, Copy, PartialEq, Eq, Debug)]
pub struct Mailbox {
    /// The number by which records name it; no mailbox has 0.
    pub id: u16,
    /// `records::SELECTABLE` and the others.
    pub attributes: u8,
    /// How many octets the name has.
    pub namelen: u8,
    /// UIDVALIDITY, as `MB` gave it.
    pub uidvalidity: u32,
    /// One above all UIDs that were ever used there.
    pub uidnext: u32,
    /// The change counter's low half; in halves, as a whole would need padding: `counter` joins them.
    pub counterlow: u32,
    /// The change counter's high half.
    pub counterhigh: u32,
    /// Zeros behind the first `namelen` octets.
    pub name: [u8; 64],
}

/// A group of NOTIFY SET, in numbers. Selectors: 0 selected, 1 selected-delayed, 2 inboxes, 3 personal, 4 subscribed,
/// 5 subtree, 6 mailboxes; the last two have `count` names from `first` on.
#[repr(C)]
#[derive(Clone, Copy, PartialEq, Eq, Debug)]
pub struct Group {
    /// Which mailboxes it meets.
    pub selector: u8,
    /// The place of its first name.
    pub first: u8,
    /// How many names it has.
    pub count: u8,
    /// The events that it asks for: 1 MessageNew, 2 MessageExpunge, 4 FlagChange, 8 MailboxName, 16 SubscriptionChange.
    pub events: u8,
    /// What it asks of a new message: 1 UID, 2 FLAGS, 4 RFC822.SIZE.
    pub attributes: u8,
}

/// A name of a group; empty where the command's argument could name no mailbox.
#[repr(C)]
#[derive(Clone, Copy, PartialEq, Eq, Debug)]
pub struct Name {
    /// How many octets it has.
    pub len: u8,
    /// Zeros behind the first `len` octets.
    pub octets: [u8; 64],
}

/// What the session knows of its client.
#[repr(C)]
#[derive(Clone, Copy, PartialEq, Eq, Debug)]
pub struct Session {
    /// The selected mailbox's id, 0 for none.
    pub selected: u16,
    /// 1 once a NOTIFY was accepted.
    pub notified: u8,
    /// How many groups stand, 0 after NOTIFY NONE or an overflow.
    pub groupcount: u8,
    /// The client knows the selected mailbox's messages with a lower UID than this.
    pub told: u32,
    /// The groups of the last NOTIFY SET, in the command's order.
    pub groups: [Group; 8],
    /// Their names.
    pub names: [Name; 16],
}

/// How much of the lent memory is in use: rows, entries of six words, octets of the queue.
#[repr(C)]
#[derive(Clone, Copy, PartialEq, Eq, Debug, Default)]
pub struct Counts {
    /// Rows of the mailbox table.
    pub mailboxes: u64,
    /// Entries of the message table.
    pub messages: u64,
    /// Octets at the queue's front that are to be written out.
    pub filled: u64,
}

/// The answer of a call, in numbers.
#[repr(C)]
#[derive(Clone, Copy, PartialEq, Eq, Debug)]
pub(crate) struct Answered {
    pub refusal: u32,
    pub counted: u32,
    pub count: u64,
}

/// Words of an entry of the message table: mailbox, UID, flags, size, states, counter.
pub(crate) const ENTRY: usize = 6;

// No octet is padding: the fields' sizes add up to the struct's, each begins where the last ends, and the alignment is that
// of the widest number.
const _: () = {
    assert!(size_of::<Mailbox>() == 84 && align_of::<Mailbox>() == 4);
    assert!(offset_of!(Mailbox, id) == 0);
    assert!(offset_of!(Mailbox, attributes) == 2);
    assert!(offset_of!(Mailbox, namelen) == 3);
    assert!(offset_of!(Mailbox, uidvalidity) == 4);
    assert!(offset_of!(Mailbox, uidnext) == 8);
    assert!(offset_of!(Mailbox, counterlow) == 12);
    assert!(offset_of!(Mailbox, counterhigh) == 16);
    assert!(offset_of!(Mailbox, name) == 20);

    assert!(size_of::<Group>() == 5 && align_of::<Group>() == 1);
    assert!(offset_of!(Group, selector) == 0);
    assert!(offset_of!(Group, first) == 1);
    assert!(offset_of!(Group, count) == 2);
    assert!(offset_of!(Group, events) == 3);
    assert!(offset_of!(Group, attributes) == 4);

    assert!(size_of::<Name>() == 65 && align_of::<Name>() == 1);
    assert!(offset_of!(Name, len) == 0);
    assert!(offset_of!(Name, octets) == 1);

    assert!(size_of::<Session>() == 1088 && align_of::<Session>() == 4);
    assert!(offset_of!(Session, selected) == 0);
    assert!(offset_of!(Session, notified) == 2);
    assert!(offset_of!(Session, groupcount) == 3);
    assert!(offset_of!(Session, told) == 4);
    assert!(offset_of!(Session, groups) == 8);
    assert!(offset_of!(Session, names) == 48);

    assert!(size_of::<Counts>() == 24 && align_of::<Counts>() == 8);
    assert!(offset_of!(Counts, mailboxes) == 0);
    assert!(offset_of!(Counts, messages) == 8);
    assert!(offset_of!(Counts, filled) == 16);

    assert!(size_of::<Answered>() == 16 && align_of::<Answered>() == 8);
    assert!(offset_of!(Answered, refusal) == 0);
    assert!(offset_of!(Answered, counted) == 4);
    assert!(offset_of!(Answered, count) == 8);

    assert!(size_of::<usize>() == 8);
};

impl Mailbox {
    /// A row that is not in use.
    pub const EMPTY: Mailbox = Mailbox {
        id: 0,
        attributes: 0,
        namelen: 0,
        uidvalidity: 0,
        uidnext: 0,
        counterlow: 0,
        counterhigh: 0,
        name: [0; 64],
    };

    /// The highest change counter that the mailbox was given.
    pub fn counter(&self) -> u64 {
        u64::from(self.counterhigh) << 32 | u64::from(self.counterlow)
    }

    /// Puts a change counter into its two halves.
    pub fn set_counter(&mut self, counter: u64) {
        self.counterlow = counter as u32;
        self.counterhigh = (counter >> 32) as u32;
    }
}

impl Session {
    /// None selected, no NOTIFY yet.
    pub const EMPTY: Session = Session {
        selected: 0,
        notified: 0,
        groupcount: 0,
        told: 0,
        groups: [Group {
            selector: 0,
            first: 0,
            count: 0,
            events: 0,
            attributes: 0,
        }; 8],
        names: [Name {
            len: 0,
            octets: [0; 64],
        }; 16],
    };
}

// Every slice is a pointer and a count, which is how the library takes one. As `&mut [T]` it would be one argument to Rust,
// which passes it otherwise where the six integer registers run out.
extern "C" {
    fn borjavid_layout() -> u32;
    fn borjavid_step(
        rows: *mut Mailbox,
        rows_len: usize,
        words: *mut u64,
        words_len: usize,
        counts: *mut Counts,
        session: *mut Session,
        queue: *mut u8,
        queue_len: usize,
        record: *const u8,
        record_len: usize,
    ) -> Answered;
    fn borjavid_find_id(rows: *const Mailbox, rows_len: usize, used: usize, id: u16) -> usize;
    fn borjavid_find_name(
        rows: *const Mailbox,
        rows_len: usize,
        used: usize,
        name: *const u8,
        name_len: usize,
    ) -> usize;
    fn borjavid_set_row(rows: *mut Mailbox, rows_len: usize, at: usize, row: Mailbox);
}

/// The number of the layout that the library was made for.
pub(crate) fn layout() -> u32 {
    // it takes nothing and reads nothing
    unsafe { borjavid_layout() }
}

pub(crate) fn step(
    rows: &mut [Mailbox],
    words: &mut [u64],
    counts: &mut Counts,
    session: &mut Session,
    queue: &mut [u8],
    record: &[u8],
) -> Answered {
    // the borrows keep every piece alive, apart from the others and unwatched until the call is over
    unsafe {
        borjavid_step(
            rows.as_mut_ptr(),
            rows.len(),
            words.as_mut_ptr(),
            words.len(),
            counts,
            session,
            queue.as_mut_ptr(),
            queue.len(),
            record.as_ptr(),
            record.len(),
        )
    }
}

/// The place of the first of the used rows with the id. Where there is none the library answers how many it searched, and
/// of a table that is too long those are 64.
pub(crate) fn find_id(rows: &[Mailbox], used: usize, id: u16) -> Option<usize> {
    let place = unsafe { borjavid_find_id(rows.as_ptr(), rows.len(), used, id) };
    Some(place).filter(|&place| place < searched(rows, used))
}

/// The same by the name, octet for octet.
pub(crate) fn find_name(rows: &[Mailbox], used: usize, name: &[u8]) -> Option<usize> {
    let (octets, len) = (name.as_ptr(), name.len());
    let place = unsafe { borjavid_find_name(rows.as_ptr(), rows.len(), used, octets, len) };
    Some(place).filter(|&place| place < searched(rows, used))
}

fn searched(rows: &[Mailbox], used: usize) -> usize {
    used.min(rows.len()).min(64)
}

/// Puts a row at a place; nothing where there is no such place.
pub(crate) fn set_row(rows: &mut [Mailbox], at: usize, row: Mailbox) {
    unsafe { borjavid_set_row(rows.as_mut_ptr(), rows.len(), at, row) }
}
