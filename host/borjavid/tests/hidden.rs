//! Demand 3 through the exported step: two streams that differ only in records about folders without rights get the same
//! answers and the same queue for the records that they share.

use borjavid::{Answer, Memory};
use reference::generate::pairs::{pair, Pair, Step};

const PAIRS: u64 = 5000;
const RECORDS: usize = 70;

type Seen = (Answer, Vec<u8>);

fn run(pair: &Pair, steps: &[Step]) -> Vec<Seen> {
    let mut memory = Memory::with_tables(pair.queue, pair.mailboxes, pair.messages);
    let mut seen = Vec::new();
    for step in steps {
        let answer = memory.step(&step.octets);
        if step.common {
            seen.push((answer, memory.queue().to_vec()));
        }
    }
    seen
}

#[test]
fn hidden_records_change_nothing_seen() {
    let (mut differing, mut filled, mut overflows, mut counted) = (0, 0, 0, 0);
    for seed in 0..PAIRS {
        let pair = pair(seed, RECORDS);
        let (one, two) = (run(&pair, &pair.first), run(&pair, &pair.second));
        assert_eq!(one, two, "pair {seed}");
        let octets = |steps: &[Step]| -> Vec<Vec<u8>> {
            steps.iter().map(|step| step.octets.clone()).collect()
        };
        differing += usize::from(octets(&pair.first) != octets(&pair.second));
        let any = |test: fn(&Seen) -> bool| usize::from(one.iter().any(test));
        filled += any(|(_, queue)| !queue.is_empty());
        overflows += any(|(_, queue)| queue.ends_with(b"* OK [NOTIFICATIONOVERFLOW] stopped\r\n"));
        counted += any(|(answer, _)| answer.count().is_some_and(|count| count > 0));
    }
    println!(
        "{differing} pairs differ, {filled} fill a queue, {overflows} overflow, {counted} count"
    );
    let most = PAIRS as usize / 2;
    assert!(differing > most && filled > most && overflows > 10 && counted > 10);
}
