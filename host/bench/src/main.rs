//! The exported step beside the independent program: nanoseconds a record by kind, how they grow, the worst calls, the stack.

mod choices;
mod climb;
mod fit;
mod growth;
mod idents;
#[path = "../../borjavid/tests/support/image.rs"]
mod image;
mod kinds;
mod lines;
mod records;
mod scene;
mod shape;
mod stack;
mod table;
mod timing;
mod trace;
mod tries;
mod worst;

const USAGE: &str = "bench [kinds] [records] [growth] [worst] [stack] [RUNS [RECORDS [SEED]]]";

fn main() {
    let (numbers, parts): (Vec<String>, Vec<String>) = std::env::args()
        .skip(1)
        .partition(|word| word.parse::<usize>().is_ok());
    let number = |place: usize, usual: usize| -> usize {
        numbers
            .get(place)
            .map_or(usual, |word| word.parse().expect(USAGE))
    };
    let (runs, records) = (number(0, 9).max(1), number(1, 20_000).max(1));
    let seed = number(2, 1) as u64;
    if parts.is_empty() {
        kinds::measure(seed, records, runs);
    }
    for part in &parts {
        match part.as_str() {
            "kinds" => kinds::measure(seed, records, runs),
            "records" => records::measure(),
            "growth" => growth::measure(),
            "worst" => worst::measure(),
            "stack" => stack::measure(),
            _ => panic!("{USAGE}"),
        }
    }
}
