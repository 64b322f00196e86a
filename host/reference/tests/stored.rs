//! The cases that the program `run_cases` is run on: what is stored is what is written by hand, the independent program answers
//! them all, every rule of docs/RULES.md has one or a reason to have none, and the random ones show all there is.

use reference::cases::{random, stored, text, total, Case};
use reference::records::read;
use std::collections::BTreeSet;
use std::path::{Path, PathBuf};

fn root() -> PathBuf {
    Path::new(env!("CARGO_MANIFEST_DIR")).join("../..")
}

fn written_by_hand() -> Vec<Case> {
    text::folder(&root().join("host/cases")).expect("cases in text")
}

fn all() -> Vec<Case> {
    let mut cases = stored::vectors(&root().join("host/vectors")).expect("vectors");
    cases.extend(written_by_hand());
    cases
}

fn stored_octets(name: &str) -> Vec<u8> {
    std::fs::read(root().join("crates/run_cases").join(name)).expect("a file of crates/run_cases")
}

#[test]
fn what_vectors_reads_and_must_print_is_up_to_date() {
    let cases = all();
    let mut octets = Vec::new();
    for case in &cases {
        case.write(&mut octets).expect("octets");
    }
    assert!(stored_octets("stdin") == octets, "crates/run_cases/stdin");
    let mut lines: String = cases.iter().map(Case::passed).collect();
    lines += &total(&cases);
    let printed = String::from_utf8(stored_octets("stdout")).expect("text");
    assert_eq!(printed, lines, "crates/run_cases/stdout");
}

#[test]
fn the_independent_program_answers_every_case() {
    let cases = all();
    let names: BTreeSet<&str> = cases.iter().map(|case| case.name.as_str()).collect();
    assert_eq!(names.len(), cases.len(), "two cases share a name");
    for case in &cases {
        assert!(!case.calls.is_empty(), "{}", case.name);
        if let Err((place, got)) = case.judge() {
            let wanted = &case.calls[place - 1];
            panic!("{}: call {place}: {got:?}, not {wanted:?}", case.name);
        }
    }
}

/// A case with one wrong expectation is noticed.
#[test]
fn a_wrong_expectation_is_noticed() {
    for case in written_by_hand() {
        let last = case.calls.len() - 1;
        for spoil in [
            |case: &mut Case, last: usize| case.calls[last].held.push(b'x'),
            |case: &mut Case, last: usize| case.calls[last].refusal ^= 8,
            |case: &mut Case, last: usize| case.calls[last].count = Some(77),
        ] {
            let mut wrong = case.clone();
            spoil(&mut wrong, last);
            assert_eq!(
                wrong.judge().map_err(|fault| fault.0),
                Err(last + 1),
                "{}",
                case.name
            );
        }
    }
}

/// The word for a section, by which rows are cited.
const WORDS: [&str; 13] = [
    "Build", "Store", "Records", "Commands", "Matches", "Written", "Duties", "Examples", "Forms",
    "Astray", "Counters", "Parent", "Why",
];

/// `Section N` for each row of docs/RULES.md.
fn rows() -> BTreeSet<String> {
    let rules = std::fs::read_to_string(root().join("docs/RULES.md")).expect("docs/RULES.md");
    let mut section = 0;
    let mut rows = BTreeSet::new();
    for line in rules.lines() {
        if line.starts_with("## ") {
            section += 1;
        }
        let number = line
            .strip_prefix("| ")
            .and_then(|line| line.split(' ').next());
        if let Some(number) = number.and_then(|word| word.parse::<u32>().ok()) {
            rows.insert(format!("{} {number}", WORDS[section - 1]));
        }
    }
    assert_eq!(section, WORDS.len());
    rows
}

/// The rows at the end of a name, in parentheses.
fn named(name: &str) -> Vec<String> {
    let inside = name
        .rsplit_once(" (")
        .and_then(|(_, rest)| rest.strip_suffix(')'));
    inside.map_or(Vec::new(), |rows| {
        rows.split(", ").map(String::from).collect()
    })
}

#[test]
fn every_rule_has_a_case_or_a_reason() {
    let rows = rows();
    assert!(rows.len() > 100);
    let mut shown = BTreeSet::new();
    for case in written_by_hand() {
        let named = named(&case.name);
        assert!(!named.is_empty(), "no row: {}", case.name);
        for row in named {
            assert!(rows.contains(&row), "{row}: {}", case.name);
            shown.insert(row);
        }
    }
    let without =
        std::fs::read_to_string(root().join("host/cases/WITHOUT.md")).expect("WITHOUT.md");
    let without: BTreeSet<String> = without
        .lines()
        .filter_map(|line| {
            line.strip_prefix("| ")?
                .split(" | ")
                .next()
                .map(String::from)
        })
        .filter(|row| row != "Row")
        .collect();
    assert!(without.is_subset(&rows), "{:?}", without.difference(&rows));
    assert!(
        without.is_disjoint(&shown),
        "{:?}",
        without.intersection(&shown)
    );
    let left: Vec<&String> = rows
        .iter()
        .filter(|row| !shown.contains(*row) && !without.contains(*row))
        .collect();
    assert!(left.is_empty(), "neither a case nor a reason: {left:?}");
}

/// The random cases of the gate: every refusal, every kind taken, both tables full, overflows, every size.
#[test]
fn random_cases_show_all_there_is() {
    let mut refusals = [0; 9];
    let mut taken: BTreeSet<[u8; 2]> = BTreeSet::new();
    let (mut calls, mut owed, mut overflows, mut fullest) = (0, 0, 0, (0, 0));
    let (mut queues, mut lengths) = (BTreeSet::new(), BTreeSet::new());
    random::cases(20261116, 100_000, |case| {
        queues.insert(case.queue);
        lengths.insert((case.mailboxes, case.messages));
        let mut memory = reference::Memory::new(case.queue, case.mailboxes, case.messages);
        for call in &case.calls {
            calls += 1;
            refusals[usize::from(call.refusal)] += 1;
            owed += usize::from(call.count.is_some_and(|count| count > 0));
            if call.refusal == 0 && read(&call.octets).is_some() {
                taken.insert([call.octets[0], call.octets[1]]);
            }
            overflows += usize::from(call.held.ends_with(b"] stopped\r\n"));
            reference::call_trusting(&mut memory, &call.octets);
            fullest.0 = fullest.0.max(memory.mailbox_count);
            fullest.1 = fullest.1.max(memory.message_count);
        }
        Ok::<(), ()>(())
    })
    .expect("cases");
    assert_eq!(calls, 100_000);
    assert!(refusals.iter().all(|&count| count > 50), "{refusals:?}");
    assert_eq!(taken.len(), 12, "{taken:?}");
    assert!(owed > 50 && overflows > 50, "{owed} {overflows}");
    assert_eq!(fullest, (64, 1024));
    assert!(queues.len() > 30 && lengths.len() > 30);
    assert!(queues.contains(&1024) && queues.contains(&65536));
}
