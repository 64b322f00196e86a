//! Nanoseconds a record, by kind: the exported step beside the independent program, on one trace.

use crate::table::Table;
use crate::timing::{best, clock};
use crate::trace::{Trace, KINDS, QUEUE};
use reference::lawful::lawful;
use reference::memory::{MAILBOXES, MESSAGES};
use reference::random::Random;
use reference::{call, call_trusting};
use std::hint::black_box;
use std::time::Instant;

type Library = borjavid::Memory;
type Independent = reference::Memory;

/// So many records are also timed by one clock: if reading it for each distorted the mean, this would show.
const SLICE: usize = 50;

/// What each of the three takes: the library, the independent program with its full test and trusting its memory.
struct Times {
    /// For each record the best of all runs.
    records: [Vec<u64>; 3],
    /// For each slice of the trace by one clock, the best of all runs.
    slices: [Vec<u64>; 3],
}

pub fn measure(seed: u64, length: usize, runs: usize) {
    let trace = crate::trace::trace(seed, length);
    let (library, independent) = starts(&trace);
    same(&trace, library.clone(), independent.clone());
    let mut times = Times {
        records: [(); 3].map(|()| vec![u64::MAX; trace.records.len()]),
        slices: [(); 3].map(|()| vec![u64::MAX; trace.records.len().div_ceil(SLICE)]),
    };
    for _ in 0..runs {
        round(&trace, &library, &independent, &mut times.records, 1);
        round(&trace, &library, &independent, &mut times.slices, SLICE);
    }
    print_kinds(seed, runs, &trace, &times);
    print_refusal_1(&independent);
}

/// Both programs behind the records that fill the tables.
fn starts(trace: &Trace) -> (Library, Independent) {
    let mut library = Library::new(QUEUE);
    let mut independent = Independent::new(QUEUE, MAILBOXES, MESSAGES);
    for octets in &trace.start {
        assert_eq!(library.step(octets).number(), 0);
        assert_eq!(call(&mut independent, octets).refusal, 0);
    }
    (library, independent)
}

/// All three must do the same work: answers and queues are compared before anything is timed.
fn same(trace: &Trace, mut library: Library, mut full: Independent) {
    let mut trusting = full.clone();
    for (_, octets) in &trace.records {
        let proved = library.step(octets);
        let answer = call(&mut full, octets);
        assert_eq!(answer, call_trusting(&mut trusting, octets));
        assert_eq!(proved.number(), answer.refusal, "{octets:?}");
        assert_eq!(proved.count(), answer.count.map(u64::from), "{octets:?}");
        assert_eq!(library.queue(), full.held(), "{octets:?}");
        assert_eq!(library.queue(), trusting.held(), "{octets:?}");
    }
}

/// The trace once by each of the three, timed in slices of so many records.
fn round(
    trace: &Trace,
    library: &Library,
    independent: &Independent,
    best: &mut [Vec<u64>; 3],
    slice: usize,
) {
    let mut lent = library.clone();
    run(trace, &mut best[0], slice, |octets| {
        let _ = black_box(lent.step(octets));
    });
    let mut memory = independent.clone();
    run(trace, &mut best[1], slice, |octets| {
        black_box(call(&mut memory, octets));
    });
    let mut memory = independent.clone();
    run(trace, &mut best[2], slice, |octets| {
        black_box(call_trusting(&mut memory, octets));
    });
}

fn run(trace: &Trace, best: &mut [u64], slice: usize, mut step: impl FnMut(&[u8])) {
    let clock = clock();
    for (records, best) in trace.records.chunks(slice).zip(best) {
        let begin = Instant::now();
        for (_, octets) in records {
            step(black_box(octets));
        }
        let took = begin.elapsed().as_nanos() as u64;
        *best = (*best).min(took.saturating_sub(clock));
    }
}

fn print_kinds(seed: u64, runs: usize, trace: &Trace, times: &Times) {
    let records = trace.records.len();
    let mean = |sum: usize| sum as f64 / records as f64;
    let (mailboxes, messages) = trace.filled;
    let sizes = format!(
        "Seed {seed}, {records} records, {runs} runs; on average {:.1} mailboxes and {:.0} messages.",
        mean(mailboxes),
        mean(messages),
    );
    let notes = [
        sizes.as_str(),
        "Nanoseconds a record: for each record the best of all runs, of these the mean. 'In slices' is the same with one clock for 50 records.",
    ];
    let heads = [
        "kind",
        "records",
        "library",
        "full",
        "trusting",
        "lib./full",
        "lib./trusting",
    ];
    let mut table = Table::new("kinds", &notes, &heads);
    for (kind, name) in KINDS.iter().enumerate() {
        let of_kind = |place: usize| trace.records[place].0 == kind;
        print_row(&mut table, name, times, of_kind);
    }
    print_row(&mut table, "all", times, |_| true);
    let sums = times.slices.each_ref().map(|slices| slices.iter().sum());
    table.row(cells(
        "in slices",
        records,
        sums.map(|sum: u64| mean(sum as usize)),
    ));
    table.print();
}

fn print_row(table: &mut Table, name: &str, times: &Times, chosen: impl Fn(usize) -> bool) {
    let places: Vec<usize> = (0..times.records[0].len())
        .filter(|&place| chosen(place))
        .collect();
    if places.is_empty() {
        return;
    }
    let mean = |who: usize| {
        let sum: u64 = places.iter().map(|&place| times.records[who][place]).sum();
        sum as f64 / places.len() as f64
    };
    table.row(cells(name, places.len(), [mean(0), mean(1), mean(2)]));
}

fn cells(name: &str, records: usize, [library, full, trusting]: [f64; 3]) -> Vec<String> {
    vec![
        name.to_string(),
        records.to_string(),
        format!("{library:.0}"),
        format!("{full:.0}"),
        format!("{trusting:.0}"),
        format!("{:.2}", library / full),
        format!("{:.1}", library / trusting.max(1.0)),
    ]
}

/// The independent program's test of refusal 1 by itself, on the full tables.
fn print_refusal_1(memory: &Independent) {
    let mut shuffled = memory.clone();
    let mut random = Random::new(1);
    for place in (1..shuffled.message_count).rev() {
        shuffled.messages.swap(place, random.below(place + 1));
    }
    let notes = [
        "The independent program's test of refusal 1 by itself, on full tables, in nanoseconds.",
    ];
    let mut table = Table::new("refusal 1", &notes, &["entries", "full"]);
    for (order, memory) in [("UIDs rising", memory), ("shuffled", &shuffled)] {
        let took = best(
            2_000,
            || (),
            |()| {
                assert!(lawful(black_box(memory)));
            },
        );
        table.row(vec![order.to_string(), took.to_string()]);
    }
    table.print();
}
