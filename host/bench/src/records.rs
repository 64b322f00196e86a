//! Every record that the worst is sought among, on plain memory: which command lines cost what.

use crate::scene::Scene;
use crate::table::Table;
use crate::timing::micros;
use crate::tries::{is_of, plain, tries, KINDS};

const RUNS: usize = 60;

pub fn measure() {
    let notes = ["Microseconds a call, each record on the same plain memory: full tables as calls leave them, 4 groups, an empty queue."];
    let heads = ["kind", "record", "library", "full", "trusting", "lib./full"];
    let mut table = Table::new("records", &notes, &heads);
    for kind in KINDS {
        let memory = plain(kind).memory();
        for (word, record) in tries(kind, &plain(kind), &memory) {
            let memory = memory.clone();
            let scene = Scene { memory, record };
            let (answer, left) = scene.served();
            if is_of(kind, answer.refusal, &left) {
                assert!(scene.agrees(), "{kind}: {word}");
                let times = [scene.library(RUNS), scene.full(RUNS), scene.trusting(RUNS)];
                let cells = [kind, word].map(str::to_string).into_iter();
                let ratio = format!("{:.2}", times[0] as f64 / times[1].max(1) as f64);
                table.row(cells.chain(times.map(micros)).chain([ratio]).collect());
            }
        }
    }
    table.print();
}
