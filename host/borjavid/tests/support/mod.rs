//! Lent memory whose every octet is in the open, between guards, and the independent program's memory as it would lie there.
#![allow(dead_code)]

pub mod image;
pub mod scene;

use borjavid::{Counts, Lent, Mailbox, Session};
use std::mem::size_of_val;

/// What a host leaves around its own fields.
const GUARD: usize = 64;

#[repr(C)]
#[derive(Clone)]
struct Guarded<T> {
    before: [u64; 8],
    it: T,
    after: [u64; 8],
}

/// The five pieces, each with guards of the same filling on both sides.
#[derive(Clone)]
pub struct Pieces {
    rows: Vec<Mailbox>,
    words: Vec<u64>,
    counts: Guarded<Counts>,
    session: Guarded<Session>,
    queue: Vec<u8>,
}

impl Pieces {
    /// Every octet is this one: tables, counts, session, queue.
    pub fn filled(octet: u8, queue: usize, mailboxes: usize, words: usize) -> Pieces {
        let word = u64::from_ne_bytes([octet; 8]);
        let half = u32::from_ne_bytes([octet; 4]);
        let row = Mailbox {
            id: u16::from_ne_bytes([octet; 2]),
            attributes: octet,
            namelen: octet,
            uidvalidity: half,
            uidnext: half,
            counterlow: half,
            counterhigh: half,
            name: [octet; 64],
        };
        Pieces {
            rows: vec![row; mailboxes + 2],
            words: vec![word; words + 2 * GUARD / 8],
            counts: guarded(
                word,
                Counts {
                    mailboxes: word,
                    messages: word,
                    filled: word,
                },
            ),
            session: guarded(word, filled_session(octet)),
            queue: vec![octet; queue + 2 * GUARD],
        }
    }

    /// The empty start, in tables and a queue whose every octet is this one.
    pub fn start(octet: u8, queue: usize, mailboxes: usize, words: usize) -> Pieces {
        let mut pieces = Pieces::filled(octet, queue, mailboxes, words);
        pieces.counts.it = Counts::default();
        pieces.session.it = Session::EMPTY;
        pieces
    }

    pub fn lend(&mut self) -> Lent<'_> {
        let (rows, words, queue) = (self.rows.len(), self.words.len(), self.queue.len());
        Lent {
            rows: &mut self.rows[1..rows - 1],
            words: &mut self.words[GUARD / 8..words - GUARD / 8],
            counts: &mut self.counts.it,
            session: &mut self.session.it,
            queue: &mut self.queue[GUARD..queue - GUARD],
        }
    }

    /// All octets, the guards among them.
    pub fn same(&self, other: &Pieces) -> bool {
        self.parts()
            .iter()
            .zip(other.parts())
            .all(|(one, two)| *one == two)
    }

    /// Which pieces differ, and where first.
    pub fn differences(&self, other: &Pieces) -> Vec<(&'static str, Option<usize>)> {
        let names = ["rows", "words", "counts", "session", "queue"];
        let pairs = self.parts().into_iter().zip(other.parts());
        names
            .into_iter()
            .zip(pairs)
            .filter(|(_, (one, two))| one != two)
            .map(|(name, (one, two))| (name, one.iter().zip(two).position(|(a, b)| a != b)))
            .collect()
    }

    fn parts(&self) -> [&[u8]; 5] {
        [
            octets(&self.rows[..]),
            octets(&self.words[..]),
            octets(&self.counts),
            octets(&self.session),
            octets(&self.queue[..]),
        ]
    }

    /// Flips bits of one octet of what is lent, and says in which piece.
    pub fn damage(&mut self, place: usize, bits: u8) {
        let sizes = self.lent_sizes();
        let mut at = place % sizes.iter().sum::<usize>();
        for (piece, size) in sizes.into_iter().enumerate() {
            if at < size {
                self.lent_octets(piece)[at] ^= bits;
                return;
            }
            at -= size;
        }
    }

    fn lent_sizes(&mut self) -> [usize; 5] {
        [0, 1, 2, 3, 4].map(|piece| self.lent_octets(piece).len())
    }

    fn lent_octets(&mut self, piece: usize) -> &mut [u8] {
        let lent = self.lend();
        match piece {
            0 => octets_mut(lent.rows),
            1 => octets_mut(lent.words),
            2 => octets_mut(lent.counts),
            3 => octets_mut(lent.session),
            _ => lent.queue,
        }
    }
}

fn guarded<T>(word: u64, it: T) -> Guarded<T> {
    Guarded {
        before: [word; 8],
        it,
        after: [word; 8],
    }
}

fn filled_session(octet: u8) -> Session {
    let mut session = Session::EMPTY;
    octets_mut(&mut session).fill(octet);
    session
}

/// The octets of a value that has no padding, as the package's own assertions show of each type that comes here.
fn octets<T: ?Sized>(value: &T) -> &[u8] {
    let size = size_of_val(value);
    unsafe { std::slice::from_raw_parts((value as *const T).cast(), size) }
}

/// The same, to be written; all of these types take any octets.
fn octets_mut<T: ?Sized>(value: &mut T) -> &mut [u8] {
    let size = size_of_val(value);
    unsafe { std::slice::from_raw_parts_mut((value as *mut T).cast(), size) }
}
