//! What is on its way to the client, in order: lines of the host's own between stretches of the library's queue. The queue's
//! octets stay in the queue until they are written, so that a client that doesn't read fills its own queue and nothing else.

use std::collections::VecDeque;

enum Piece {
    Own(Vec<u8>),
    /// So many octets of the queue.
    Notices(usize),
    /// So many octets of the queue that are not for the client.
    Skipped(usize),
}

#[derive(Default)]
pub struct Outgoing {
    pieces: VecDeque<Piece>,
    /// Octets of the queue that have a piece, or are in the writer's hand.
    placed: usize,
    /// Octets that were ever put in line, how many of them the writer has taken, and how many are done with.
    promised: u64,
    taken: u64,
    done: u64,
    /// The last piece is in line: what comes later stays in the queue.
    sealed: bool,
}

/// What the writer has in hand: octets of its own, and stretches of the queue's front by length.
pub struct Batch {
    pub parts: Vec<Part>,
    /// Octets of the queue to be drained when all is written.
    pub drains: usize,
    promised: u64,
}

pub enum Part {
    Own(Vec<u8>),
    /// From where in the queue, and how many octets.
    Queue(usize, usize),
}

impl Outgoing {
    /// Gives what the queue holds its place, in front of all that comes later. Answers what must be done with until then.
    pub fn place(&mut self, queue: usize) -> u64 {
        let more = queue - self.placed;
        if more > 0 && !self.sealed {
            self.put(Piece::Notices(more), more);
            self.placed = queue;
        }
        self.promised
    }

    /// Lines of the host's own, behind all that the queue holds.
    pub fn own(&mut self, queue: usize, octets: Vec<u8>) {
        self.place(queue);
        let len = octets.len();
        self.put(Piece::Own(octets), len);
    }

    /// What has come to the queue since it was last placed never reaches the client.
    pub fn skip(&mut self, queue: usize) {
        let more = queue - self.placed;
        self.put(Piece::Skipped(more), more);
        self.placed = queue;
    }

    fn put(&mut self, piece: Piece, len: usize) {
        if !self.sealed {
            self.pieces.push_back(piece);
            self.promised += len as u64;
        }
    }

    /// Nothing comes after what is in line.
    pub fn seal(&mut self) {
        self.sealed = true;
    }

    pub fn is_waiting(&self, queue: usize) -> bool {
        !self.pieces.is_empty() || (queue > self.placed && !self.sealed)
    }

    /// Octets that wait for the writer.
    pub fn behind(&self) -> u64 {
        self.promised - self.taken
    }

    pub fn is_done(&self, until: u64) -> bool {
        self.done >= until
    }

    /// All that is to be written now.
    pub fn take(&mut self, queue: usize) -> Batch {
        let promised = self.place(queue);
        self.taken = promised;
        let mut batch = Batch {
            parts: Vec::new(),
            drains: 0,
            promised,
        };
        for piece in self.pieces.drain(..) {
            match piece {
                Piece::Own(octets) => batch.parts.push(Part::Own(octets)),
                Piece::Notices(count) => {
                    batch.parts.push(Part::Queue(batch.drains, count));
                    batch.drains += count;
                }
                Piece::Skipped(count) => batch.drains += count,
            }
        }
        batch
    }

    /// A batch was written, and the queue drained of it.
    pub fn finish(&mut self, batch: &Batch) {
        self.placed -= batch.drains;
        self.done = batch.promised;
    }
}

#[cfg(test)]
mod tests {
    use super::*;

    /// Nothing comes behind BYE, whatever is put in line until it is written.
    #[test]
    fn sealed() {
        let mut outgoing = Outgoing::default();
        outgoing.own(10, b"* BYE\r\n".to_vec());
        outgoing.seal();
        outgoing.own(20, b"* 1 EXISTS\r\n".to_vec());
        assert_eq!(outgoing.place(30), 17);
        let batch = outgoing.take(30);
        let [Part::Queue(0, 10), Part::Own(own)] = &batch.parts[..] else {
            panic!("{} parts", batch.parts.len());
        };
        assert_eq!((&own[..], batch.drains), (&b"* BYE\r\n"[..], 10));
        outgoing.finish(&batch);
        assert!(outgoing.is_done(17) && !outgoing.is_waiting(20));
    }
}
