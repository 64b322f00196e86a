//! The twelve kinds of record, in octets. A builder takes any value of its types: what is out of range makes a record that
//! the step refuses with 2.

// Attribute bits of `create`; the last two are the rights, and all that `rights` takes.

/// The mailbox can be selected.
pub const SELECTABLE: u8 = 1;
/// It is one of the user's own (`personal`).
pub const PERSONAL: u8 = 2;
/// Mail is delivered there (`inboxes`, where it is personal too).
pub const DELIVERY: u8 = 4;
/// The user is subscribed to it.
pub const SUBSCRIBED: u8 = 8;
/// The right l: the user may list it.
pub const LOOKUP: u8 = 16;
/// The right r: the user may read it.
pub const READ: u8 = 32;

/// The flag `\Answered`.
pub const ANSWERED: u8 = 1;
/// The flag `\Flagged`.
pub const FLAGGED: u8 = 2;
/// The flag `\Deleted`.
pub const DELETED: u8 = 4;
/// The flag `\Seen`.
pub const SEEN: u8 = 8;
/// The flag `\Draft`.
pub const DRAFT: u8 = 16;

/// Change counters are 1 to this.
pub const COUNTER_MOST: u64 = (1 << 63) - 1;

/// Whether a notice is owed for the change.
#[derive(Clone, Copy, PartialEq, Eq, Debug)]
pub enum Notice {
    /// The rules decide who is told.
    Owed = 0,
    /// Nobody is told: children that a rename carries along, the fresh INBOX, what the client did itself.
    Quiet = 1,
}

/// The class of a command that ends.
#[derive(Clone, Copy, PartialEq, Eq, Debug)]
pub enum Class {
    /// FETCH, STORE and SEARCH: no EXPUNGE may come.
    Fetch = 0,
    /// All others, the UID forms too.
    Rest = 1,
}

/// `MB`: a mailbox comes to be, with this change counter.
pub fn create(
    id: u16,
    attributes: u8,
    notice: Notice,
    uid_validity: u32,
    counter: u64,
    name: &[u8],
) -> Vec<u8> {
    let [low, high] = id.to_le_bytes();
    let head = [low, high, attributes, notice as u8];
    let (validity, counter) = (uid_validity.to_le_bytes(), counter.to_le_bytes());
    record(b"MB", &[&head, &validity, &counter, name])
}

/// `DL`: it is gone, with its messages.
pub fn delete(id: u16, notice: Notice) -> Vec<u8> {
    record(b"DL", &[&id.to_le_bytes(), &[notice as u8]])
}

/// `RN`: it has another name.
pub fn rename(id: u16, notice: Notice, name: &[u8]) -> Vec<u8> {
    record(b"RN", &[&id.to_le_bytes(), &[notice as u8], name])
}

/// `SB`: it is subscribed to, or no longer.
pub fn subscribe(id: u16, subscribed: bool, notice: Notice) -> Vec<u8> {
    record(
        b"SB",
        &[&id.to_le_bytes(), &[u8::from(subscribed), notice as u8]],
    )
}

/// `RT`: these are the user's rights there, `LOOKUP` and `READ`.
pub fn rights(id: u16, rights: u8) -> Vec<u8> {
    record(b"RT", &[&id.to_le_bytes(), &[rights]])
}

/// `ME`: a message comes. Its counter, like that of every later change, is above all that the mailbox was given.
pub fn message(id: u16, uid: u32, flags: u8, size: u32, counter: u64) -> Vec<u8> {
    let (id, uid, size) = (id.to_le_bytes(), uid.to_le_bytes(), size.to_le_bytes());
    record(b"ME", &[&id, &uid, &[flags], &size, &counter.to_le_bytes()])
}

/// `XP`: a message is gone.
pub fn expunge(id: u16, uid: u32, counter: u64) -> Vec<u8> {
    let (id, uid) = (id.to_le_bytes(), uid.to_le_bytes());
    record(b"XP", &[&id, &uid, &counter.to_le_bytes()])
}

/// `FL`: a message has these flags.
pub fn flags(id: u16, uid: u32, flags: u8, counter: u64) -> Vec<u8> {
    let (id, uid) = (id.to_le_bytes(), uid.to_le_bytes());
    record(b"FL", &[&id, &uid, &[flags], &counter.to_le_bytes()])
}

/// `SE`: the client has this mailbox open, or none (0).
pub fn select(id: u16) -> Vec<u8> {
    record(b"SE", &[&id.to_le_bytes()])
}

/// `CE`: a command ends; its tagged line is not yet written.
pub fn command_ended(class: Class) -> Vec<u8> {
    record(b"CE", &[&[class as u8]])
}

/// `CM`: a NOTIFY or ESEARCH of the client, without its line end.
pub fn command(line: &[u8]) -> Vec<u8> {
    record(b"CM", &[line])
}

/// `DR`: so many octets were written out. More than a record can say is more than any queue holds.
pub fn drained(count: usize) -> [u8; 8] {
    let [a, b, c, d] = u32::try_from(count).unwrap_or(u32::MAX).to_le_bytes();
    [b'D', b'R', 4, 0, a, b, c, d]
}

/// Mark, length, body. A body that its length field can't say keeps a false one, so that it is refused and not cut.
fn record(mark: &[u8; 2], parts: &[&[u8]]) -> Vec<u8> {
    let len: usize = parts.iter().map(|part| part.len()).sum();
    let mut octets = Vec::with_capacity(4 + len);
    octets.extend_from_slice(mark);
    octets.extend_from_slice(&(len as u16).to_le_bytes());
    parts.iter().for_each(|part| octets.extend_from_slice(part));
    octets
}
