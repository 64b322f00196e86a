//! The worst call of each kind, beside the independent program on the same memory.

use crate::choices::words;
use crate::climb::{worst, Call};
use crate::scene::Scene;
use crate::table::Table;
use crate::timing::micros;
use crate::tries::KINDS;

const RUNS: usize = 10;
/// The calls found are timed by turns, far apart: others use the machine too, and for longer than one call's runs.
const TURNS: usize = 6;

pub fn measure() {
    let by_calls = KINDS.map(|kind| worst(kind, true, Call::hostile(kind)));
    let mut any = by_calls;
    for (call, kind) in any.iter_mut().zip(KINDS) {
        *call = worst(kind, false, *call);
    }
    print(
        "worst by calls",
        "The worst call found of each kind, in microseconds, on memory such as calls alone make.",
        by_calls,
    );
    print(
        "worst",
        "The worst call found of each kind, in microseconds, on any lawful memory: entries in any order.",
        any,
    );
}

fn print(name: &str, note: &str, calls: [Call; KINDS.len()]) {
    let heads = [
        "kind",
        "library",
        "full",
        "trusting",
        "lib./full",
        "what it is",
    ];
    let mut table = Table::new(name, &[note], &heads);
    let scenes: Vec<(Scene, &str)> = calls
        .iter()
        .zip(KINDS)
        .map(|(call, kind)| call.scene(kind).expect("a record of its kind"))
        .collect();
    for (((scene, record), times), (call, kind)) in scenes
        .iter()
        .zip(times(&scenes))
        .zip(calls.iter().zip(KINDS))
    {
        assert!(scene.agrees(), "{kind}: {:?}", call.shape);
        let mut cells = vec![kind.to_string()];
        cells.extend(times.map(micros));
        cells.push(format!("{:.1}", times[0] as f64 / times[1].max(1) as f64));
        let mut what = vec![*record];
        what.extend(words(&call.shape));
        cells.push(what.join("; "));
        table.row(cells);
    }
    table.print();
}

/// The library, the independent program with its full test, and trusting its memory.
fn times(scenes: &[(Scene, &str)]) -> Vec<[u64; 3]> {
    let mut times = vec![[u64::MAX; 3]; scenes.len()];
    for _ in 0..TURNS {
        for ((scene, _), best) in scenes.iter().zip(&mut times) {
            let now = [scene.library(RUNS), scene.full(RUNS), scene.trusting(RUNS)];
            for (best, now) in best.iter_mut().zip(now) {
                *best = (*best).min(now);
            }
        }
    }
    times
}
