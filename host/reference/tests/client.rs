//! What a client can rely on: from an `SE` on, the lines alone give it the view's length, and
//! every UID it knows stands at the view's place for it.

mod support;

use reference::generate::{record, Generator};
use reference::random::Random;
use reference::records::{read, Record};
use reference::selected::by_uid;
use reference::{call_trusting, Memory};
use support::contains;

/// A client that reads octets as they are drained, torn lines included.
#[derive(Clone, Default)]
struct Client {
    unread: Vec<u8>,
    list: Vec<Option<u32>>,
    lines: usize,
}

impl Client {
    fn read(&mut self, octets: &[u8]) {
        self.unread.extend_from_slice(octets);
        while let Some(end) = self.unread.windows(2).position(|pair| pair == b"\r\n") {
            let line: Vec<u8> = self.unread.drain(..end + 2).collect();
            self.line(std::str::from_utf8(&line[..end]).expect("lines are ASCII"));
        }
    }

    fn line(&mut self, line: &str) {
        let words: Vec<&str> = line.split(' ').collect();
        let ["*", number, what, items @ ..] = &words[..] else {
            return;
        };
        let Ok(number) = number.parse::<usize>() else {
            return;
        };
        self.lines += 1;
        match *what {
            "EXISTS" => {
                assert!(number > self.list.len(), "EXISTS must lengthen: {line}");
                self.list.resize(number, None);
            }
            "EXPUNGE" => {
                assert!((1..=self.list.len()).contains(&number), "{line}");
                self.list.remove(number - 1);
            }
            "FETCH" => {
                assert!((1..=self.list.len()).contains(&number), "{line}");
                if let ["(UID", uid, ..] = items {
                    let uid = uid.trim_end_matches(')').parse().expect("a UID");
                    let known = &mut self.list[number - 1];
                    assert!(known.is_none_or(|known| known == uid), "{line}");
                    *known = Some(uid);
                }
            }
            other => panic!("{other}"),
        }
    }
}

/// UIDs of the view, expunged ones included.
fn view(memory: &Memory) -> Vec<u32> {
    let entries = memory.entries();
    by_uid(memory, memory.session.selected)
        .into_iter()
        .map(|place| entries[place as usize].uid)
        .filter(|&uid| uid < memory.session.told)
        .collect()
}

#[test]
fn lines_give_the_view() {
    let (mut lines, mut unknown, mut torn, mut overflows, mut settled) = (0, 0, 0, 0, 0);
    for seed in 0..6_000 {
        let mut random = Random::new(seed);
        let queue = random.pick(&[1024, 1024, 1300, 8192]);
        let messages = random.pick(&[8, 30, 1024]);
        let mut generator = Generator::new(random.number());
        let mut memory = Memory::new(queue, 64, messages);
        let mut client = Client::default();
        for _ in 0..120 {
            let octets = generator.propose(&memory);
            let before = memory.held().to_vec();
            if let Some(Record::Select { .. }) = read(&octets) {
                // the host sends all there is before it answers SELECT
                client.read(&before);
                let all = record("DR", &(before.len() as u32).to_le_bytes());
                assert_eq!(call_trusting(&mut memory, &all).refusal, 0);
            }
            let answer = call_trusting(&mut memory, &octets);
            match read(&octets) {
                Some(Record::Select { .. }) if answer.refusal == 0 => {
                    client.unread.clear();
                    client.list = view(&memory).into_iter().map(Some).collect();
                    let all = memory.count_in(memory.session.selected);
                    assert_eq!(client.list.len(), all as usize);
                }
                Some(Record::Drained { count }) if answer.refusal == 0 => {
                    client.read(&before[..count as usize]);
                    torn += usize::from(!client.unread.is_empty());
                }
                _ => {}
            }
            // what is still in the queue is as good as read
            let mut ahead = client.clone();
            ahead.read(memory.held());
            assert!(ahead.unread.is_empty(), "whole lines in the queue");
            let view = view(&memory);
            assert_eq!(ahead.list.len(), view.len(), "stream {seed}");
            let agrees =
                |(known, uid): (&Option<u32>, &u32)| known.is_none_or(|known| known == *uid);
            assert!(ahead.list.iter().zip(&view).all(agrees), "stream {seed}");
            // a class 1 end that leaves nothing owed makes view and store the same
            let open = memory
                .selected()
                .is_some_and(|row| row.attributes & 0x30 == 0x30);
            if octets == *b"CE\x01\x00\x01" && answer.count == Some(0) && open {
                let expunged = memory.entries().iter().any(|entry| entry.is_expunged());
                assert!(!expunged);
                assert_eq!(view.len() as u32, memory.count_in(memory.session.selected));
                settled += 1;
            }
            unknown += usize::from(ahead.list.contains(&None));
            overflows += usize::from(contains(memory.held(), "* OK [NOTIFICATIONOVERFLOW]"));
        }
        lines += client.lines;
    }
    println!(
        "lines {lines}, unknown {unknown}, torn {torn}, overflows {overflows}, settled {settled}"
    );
    assert!(
        lines > 10_000 && unknown > 1_000 && torn > 1_000 && overflows > 100 && settled > 1_000
    );
}
