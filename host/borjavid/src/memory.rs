//! The memory of one session, owned or borrowed.

use crate::answer::Answer;
use crate::layout::check_layout;
use crate::raw::{self, Counts, Mailbox, Session, ENTRY};
use crate::records;
use std::io::{self, Write};

/// Rows of the longest mailbox table.
pub const MAILBOXES: usize = 64;
/// Entries of the longest message table.
pub const MESSAGES: usize = 1024;
/// Octets of the shortest queue.
pub const QUEUE_LEAST: usize = 1024;
/// Octets of the longest queue.
pub const QUEUE_MOST: usize = 65536;

/// Memory of a host's own, lent for some calls. Five pieces, apart from each other by the borrow checker's word. The empty start
/// is all zeros. Ask [`check_layout`] once, before the first call.
///
/// ```
/// use borjavid::records::{create, Notice, LOOKUP, READ, SELECTABLE};
/// use borjavid::{check_layout, Counts, Lent, Mailbox, Session};
///
/// check_layout()?;
/// let (mut rows, mut words) = ([Mailbox::EMPTY; 8], [0; 6 * 100]);
/// let (mut counts, mut session, mut queue) = (Counts::default(), Session::EMPTY, [0; 4096]);
/// let mut lent = Lent {
///     rows: &mut rows,
///     words: &mut words,
///     counts: &mut counts,
///     session: &mut session,
///     queue: &mut queue,
/// };
/// lent.step(&create(1, SELECTABLE | LOOKUP | READ, Notice::Quiet, 7, 1, b"INBOX")).ok()?;
/// assert_eq!(lent.find_name(b"INBOX"), Some(0));
/// assert_eq!(counts.mailboxes, 1);
/// # Ok::<(), Box<dyn std::error::Error>>(())
/// ```
pub struct Lent<'a> {
    /// The mailbox table, 64 rows at most.
    pub rows: &'a mut [Mailbox],
    /// The message table, six words an entry. Words behind the last whole entry are never touched.
    pub words: &'a mut [u64],
    /// How much of the other pieces is in use.
    pub counts: &'a mut Counts,
    /// What the session knows of its client.
    pub session: &'a mut Session,
    /// The output queue, 1,024 to 65,536 octets.
    pub queue: &'a mut [u8],
}

impl Lent<'_> {
    /// One record.
    pub fn step(&mut self, record: &[u8]) -> Answer {
        raw::step(
            self.rows,
            self.words,
            self.counts,
            self.session,
            self.queue,
            record,
        )
        .into()
    }

    /// What is to be written out, in whole lines if only whole lines were drained.
    pub fn queue(&self) -> &[u8] {
        held(self.queue, self.counts)
    }

    /// So many octets were written out, and leave the queue's front.
    pub fn drain(&mut self, count: usize) -> Answer {
        self.step(&records::drained(count))
    }

    /// Writes the queue out, and drains what was written. Where the writer fails in between, what it took is drained. Where
    /// the step refuses the drain, the memory is no longer lawful: that is an error which holds the [`Refusal`](crate::Refusal),
    /// and the same octets would come again.
    pub fn drain_to(&mut self, out: &mut impl Write) -> io::Result<usize> {
        let (written, ended) = write_some(out, self.queue());
        self.drain(written).ok().map_err(io::Error::other)?;
        ended.map(|()| written)
    }

    /// The place of the mailbox with this id.
    pub fn find_id(&self, id: u16) -> Option<usize> {
        raw::find_id(self.rows, used(self.counts.mailboxes, self.rows.len()), id)
    }

    /// The place of the mailbox with this name, as it is kept.
    pub fn find_name(&self, name: &[u8]) -> Option<usize> {
        raw::find_name(
            self.rows,
            used(self.counts.mailboxes, self.rows.len()),
            name,
        )
    }

    /// Puts a row where there is such a place. For a host that stores sessions away: a record does it otherwise, and the
    /// next call judges the row as it judges all memory.
    pub fn set_row(&mut self, place: usize, row: Mailbox) {
        raw::set_row(self.rows, place, row)
    }

    /// The UIDs of the client's view: message n is at n - 1.
    pub fn view(&self) -> Vec<u32> {
        view(self.words, self.counts, self.session)
    }
}

/// Memory of its own, at the empty start: no mailbox, none selected, no NOTIFY yet.
#[derive(Clone, PartialEq, Eq, Debug)]
pub struct Memory {
    rows: Box<[Mailbox]>,
    words: Box<[u64]>,
    counts: Counts,
    session: Session,
    queue: Box<[u8]>,
}

impl Memory {
    /// The longest tables, and a queue of so many octets: 1,024 to 65,536, or every call is refused.
    ///
    /// # Panics
    /// Where a library with another layout is linked: see [`check_layout`].
    pub fn new(queue: usize) -> Memory {
        Memory::with_tables(queue, MAILBOXES, MESSAGES)
    }

    /// Tables of so many rows and entries: at most 64 and 1,024, or every call is refused.
    ///
    /// # Panics
    /// Where a library with another layout is linked: see [`check_layout`].
    pub fn with_tables(queue: usize, mailboxes: usize, messages: usize) -> Memory {
        check_layout().unwrap_or_else(|wrong| panic!("{wrong}"));
        Memory {
            rows: vec![Mailbox::EMPTY; mailboxes].into(),
            words: vec![0; ENTRY * messages].into(),
            counts: Counts::default(),
            session: Session::EMPTY,
            queue: vec![0; queue].into(),
        }
    }

    /// The memory, lent for some calls.
    pub fn lend(&mut self) -> Lent<'_> {
        Lent {
            rows: &mut self.rows,
            words: &mut self.words,
            counts: &mut self.counts,
            session: &mut self.session,
            queue: &mut self.queue,
        }
    }

    /// One record.
    pub fn step(&mut self, record: &[u8]) -> Answer {
        self.lend().step(record)
    }

    /// What is to be written out, in whole lines if only whole lines were drained.
    pub fn queue(&self) -> &[u8] {
        held(&self.queue, &self.counts)
    }

    /// So many octets were written out, and leave the queue's front.
    pub fn drain(&mut self, count: usize) -> Answer {
        self.lend().drain(count)
    }

    /// As [`Lent::drain_to`].
    pub fn drain_to(&mut self, out: &mut impl Write) -> io::Result<usize> {
        self.lend().drain_to(out)
    }

    /// The mailboxes, in the order in which they came.
    pub fn mailboxes(&self) -> &[Mailbox] {
        used_rows(&self.rows, &self.counts)
    }

    /// What the session knows of its client.
    pub fn session(&self) -> &Session {
        &self.session
    }

    /// The UIDs of the client's view: message n is at n - 1.
    pub fn view(&self) -> Vec<u32> {
        view(&self.words, &self.counts, &self.session)
    }

    /// How many mailboxes and messages there is still room for.
    pub fn room(&self) -> (usize, usize) {
        (
            self.rows.len() - used(self.counts.mailboxes, self.rows.len()),
            self.words.len() / ENTRY - used(self.counts.messages, self.words.len() / ENTRY),
        )
    }
}

/// A count, and no more than there is: memory that a host damaged is for the step to refuse, and nothing here may panic.
fn used(count: u64, len: usize) -> usize {
    usize::try_from(count).map_or(len, |count| count.min(len))
}

fn held<'a>(queue: &'a [u8], counts: &Counts) -> &'a [u8] {
    &queue[..used(counts.filled, queue.len())]
}

fn used_rows<'a>(rows: &'a [Mailbox], counts: &Counts) -> &'a [Mailbox] {
    &rows[..used(counts.mailboxes, rows.len())]
}

fn view(words: &[u64], counts: &Counts, session: &Session) -> Vec<u32> {
    let entries = used(counts.messages, words.len() / ENTRY);
    let known = |entry: &&[u64]| {
        session.selected != 0
            && entry[0] == u64::from(session.selected)
            && entry[1] < u64::from(session.told)
    };
    let mut uids: Vec<u32> = words[..entries * ENTRY]
        .chunks_exact(ENTRY)
        .filter(known)
        .map(|entry| entry[1] as u32)
        .collect();
    uids.sort_unstable();
    uids
}

/// Writes what a writer takes: how much that was, and how it ended.
fn write_some(out: &mut impl Write, octets: &[u8]) -> (usize, io::Result<()>) {
    let mut written = 0;
    while written < octets.len() {
        match out.write(&octets[written..]) {
            Ok(0) => return (written, Err(io::ErrorKind::WriteZero.into())),
            Ok(count) => written += count,
            Err(fault) if fault.kind() == io::ErrorKind::Interrupted => {}
            Err(fault) => return (written, Err(fault)),
        }
    }
    (written, out.flush())
}
