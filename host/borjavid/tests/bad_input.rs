//! Whatever a host hands over, a clear answer comes and nothing changes: every length of record, tables of no length, an empty
//! queue, Q at each bound, memory filled with each octet, memory damaged anywhere.

mod support;

use borjavid::records::{self, Notice};
use borjavid::{Answer, Refusal};
use reference::random::Random;
use support::scene::{in_use, kinds};
use support::{image, Pieces};

const UNLAWFUL: Answer = Answer::Refused(Refusal::UnlawfulMemory);
const BAD: Answer = Answer::Refused(Refusal::BadRecord);

#[test]
fn every_kind_is_taken_in_use() {
    for record in kinds() {
        let mut pieces = in_use(1024, 4, 48);
        let answer = pieces.lend().step(&record);
        assert!(
            matches!(answer, Answer::Done | Answer::Counted(_)),
            "{record:?}: {answer:?}"
        );
    }
}

/// A record of a kind cut or drawn out to a length, with a length field that says so where it can.
fn stretched(kind: &[u8], length: usize) -> Vec<u8> {
    let mut octets = kind.to_vec();
    octets.resize(length, b'a');
    if length >= 4 {
        octets[2..4].copy_from_slice(&((length - 4) as u16).to_le_bytes());
    }
    octets
}

/// Which lengths of body a kind has.
fn bodies(mark: &[u8]) -> std::ops::RangeInclusive<usize> {
    match mark {
        b"MB" => 17..=80,
        b"RN" => 4..=67,
        b"CM" => 0..=1024,
        b"DL" | b"RT" => 3..=3,
        b"SB" | b"DR" => 4..=4,
        b"ME" => 19..=19,
        b"XP" => 14..=14,
        b"FL" => 15..=15,
        b"SE" => 2..=2,
        _ => 1..=1,
    }
}

#[test]
fn every_length_of_record() {
    let start = in_use(1024, 4, 48);
    let mut pieces = start.clone();
    for kind in kinds() {
        let mut taken = 0;
        for length in 0..=70_000 {
            let record = stretched(&kind, length);
            let answer = pieces.lend().step(&record);
            if length >= 4 && bodies(&kind[..2]).contains(&(length - 4)) {
                assert_ne!(answer.number(), 2, "{:?}, {length} octets", &kind[..2]);
                taken += 1;
                pieces = start.clone();
            } else {
                assert_eq!(answer, BAD, "{:?}, {length} octets", &kind[..2]);
                assert!(
                    pieces.same(&start),
                    "{:?}, {length} octets: {:?}",
                    &kind[..2],
                    pieces.differences(&start)
                );
            }
        }
        assert_eq!(taken, bodies(&kind[..2]).count());
    }
}

#[test]
fn every_length_of_one_octet() {
    let start = in_use(65536, 64, 6144);
    let mut pieces = start.clone();
    for octet in [0, b'M', 0xAA, 0xFF] {
        let octets = vec![octet; 70_000];
        for length in (0..=70_000).step_by(7).chain(65_530..=65_550) {
            assert_eq!(
                pieces.lend().step(&octets[..length]),
                BAD,
                "{length} times {octet}"
            );
        }
        assert!(pieces.same(&start));
    }
}

#[test]
fn tables_of_no_length() {
    let mut pieces = Pieces::start(0xAA, 1024, 0, 0);
    let start = pieces.clone();
    let wanted = [7, 3, 3, 3, 3, 3, 3, 3, 3, 0, 0, 6];
    for (record, wanted) in kinds().iter().zip(wanted) {
        assert_eq!(pieces.lend().step(record).number(), wanted, "{record:?}");
        if wanted != 0 {
            assert!(pieces.same(&start), "{record:?}");
        } else {
            pieces = start.clone();
        }
    }
    // five words are no entry
    let mut pieces = Pieces::start(0xAA, 1024, 1, 5);
    let mailbox = records::create(1, 0x33, Notice::Owed, 1, 1, b"a");
    assert_eq!(pieces.lend().step(&mailbox), Answer::Done);
    let before = pieces.clone();
    let message = records::message(1, 1, 0, 0, 2);
    assert_eq!(pieces.lend().step(&message).number(), 7);
    assert!(pieces.same(&before));
}

#[test]
fn queues_of_other_sizes() {
    for queue in [0, 1, 64, 512, 1023, 65537, 65600, 70_000] {
        for (mailboxes, words) in [(0, 0), (4, 48), (64, 6144)] {
            let mut pieces = Pieces::start(0xAA, queue, mailboxes, words);
            let start = pieces.clone();
            for record in kinds().iter().chain([&vec![], &vec![0; 70_000]]) {
                assert_eq!(pieces.lend().step(record), UNLAWFUL, "Q {queue}");
                assert!(pieces.same(&start), "Q {queue}");
            }
        }
    }
    for queue in [1024, 1025, 65535, 65536] {
        for record in kinds() {
            let answer = in_use(queue, 4, 48).lend().step(&record);
            assert_eq!(answer.number(), 0, "Q {queue}: {record:?}");
        }
    }
}

#[test]
fn tables_that_are_too_long() {
    for (mailboxes, words) in [(65, 48), (100, 48), (4, 6150), (4, 9000), (65, 6150)] {
        let mut pieces = Pieces::start(0xAA, 1024, mailboxes, words);
        let start = pieces.clone();
        for record in kinds() {
            assert_eq!(
                pieces.lend().step(&record),
                UNLAWFUL,
                "{mailboxes} rows, {words} words"
            );
            assert!(pieces.same(&start));
        }
    }
}

#[test]
fn memory_of_one_octet() {
    for octet in 0..=255 {
        for (queue, mailboxes, words) in [(1024, 4, 48), (65536, 64, 6144), (1024, 0, 0), (0, 0, 0)]
        {
            let mut pieces = Pieces::filled(octet, queue, mailboxes, words);
            let start = pieces.clone();
            for record in kinds().iter().chain([&vec![], &vec![octet; 70_000]]) {
                let answer = pieces.lend().step(record);
                if octet == 0 && queue > 0 {
                    // zeros are the empty start
                    assert_ne!(answer, UNLAWFUL);
                    pieces = start.clone();
                } else {
                    assert_eq!(answer, UNLAWFUL, "octet {octet}");
                    assert!(pieces.same(&start), "octet {octet}");
                }
            }
        }
    }
}

/// One piece of a session in use is one octet all over; the queue's contents alone are nobody's business.
#[test]
fn one_piece_of_one_octet() {
    for octet in 0..=255 {
        let word = u64::from_ne_bytes([octet; 8]);
        for piece in 0..5 {
            let mut pieces = in_use(1024, 4, 48);
            let other = &mut Pieces::filled(octet, 1024, 4, 48);
            match piece {
                0 => pieces.lend().rows.copy_from_slice(other.lend().rows),
                1 => pieces.lend().words.fill(word),
                2 => *pieces.lend().counts = *other.lend().counts,
                3 => *pieces.lend().session = *other.lend().session,
                _ => pieces.lend().queue.fill(octet),
            }
            let start = pieces.clone();
            for record in kinds() {
                let answer = pieces.lend().step(&record);
                if piece == 4 {
                    assert_eq!(answer.number(), 0, "a queue of {octet}: {record:?}");
                    pieces = start.clone();
                } else {
                    assert_eq!(answer, UNLAWFUL, "piece {piece} of {octet}");
                    assert!(pieces.same(&start), "piece {piece} of {octet}");
                }
            }
        }
    }
}

/// A damaged octet, or a few: the independent program judges the same, and then does the same.
#[test]
fn damaged_memory() {
    let mut random = Random::new(5465);
    let kinds = kinds();
    let (mut unlawful, mut taken) = (0, 0);
    for turn in 0..100_000 {
        let (queue, mailboxes, words) = random.pick(&[(1024, 3, 30), (1024, 4, 48), (1100, 3, 36)]);
        let mut pieces = in_use(queue, mailboxes, words);
        for _ in 0..random.pick(&[1, 1, 1, 2, 5]) {
            // the fields, not the long queue
            let bit = 1 << random.below(8);
            let any = random.octet();
            pieces.damage(
                random.below(3 * 84 + 8 * words + 24 + 120),
                random.pick(&[bit, any]),
            );
        }
        let mut wanted = pieces.clone();
        let record = &kinds[random.below(kinds.len())];
        let expected = match image::read(&wanted.lend()) {
            None => (1, None),
            Some(mut memory) => {
                let answer = reference::call(&mut memory, record);
                if answer.refusal == 0 {
                    image::write(&memory, wanted.lend());
                }
                (answer.refusal, answer.count.map(u64::from))
            }
        };
        let answer = pieces.lend().step(record);
        assert_eq!(
            (answer.number(), answer.count()),
            expected,
            "turn {turn}: {record:?}"
        );
        assert!(
            pieces.same(&wanted),
            "turn {turn}: {record:?}: {:?}",
            pieces.differences(&wanted)
        );
        unlawful += usize::from(expected.0 == 1);
        taken += usize::from(expected.0 == 0);
    }
    println!("{unlawful} unlawful, {taken} taken");
    assert!(unlawful > 10_000 && taken > 1000);
}
