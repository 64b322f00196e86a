//! What is tried of each part of a shape, and the words for it.

use crate::idents::{Ids, Names};
use crate::shape::*;

// The plain one first in each, which has no word.
const IDS: [(Ids, &str); 5] = [
    (Ids::Drawn, ""),
    (Ids::Falling, "ids falling"),
    (Ids::Slot32, "ids of one slot (32 bits)"),
    (Ids::Slot16, "ids of one slot (16 bits)"),
    (Ids::LowBits, "ids of one slot (low bits)"),
];
const NAMES: [(Names, &str); 5] = [
    (Names::Short, ""),
    (Names::Alike, "names of 64 alike"),
    (Names::Quoted, "names of 64 to be quoted"),
    (Names::Digest, "names of one digest"),
    (Names::Deep, "names of 32 parts"),
];
const ROWS: [(Order, &str); 3] = [
    (Order::Rising, ""),
    (Order::Falling, "rows falling"),
    (Order::Shuffled, "rows shuffled"),
];
const ENTRIES: [(Order, &str); 4] = [
    (Order::Rising, ""),
    (Order::Falling, "entries falling"),
    (Order::Shuffled, "entries shuffled"),
    (Order::FirstLast, "first entry last"),
];
const SPREADS: [(Spread, &str); 4] = [
    (Spread::Even, ""),
    (Spread::Half, "half selected"),
    (Spread::Selected, "all selected"),
    (Spread::First, "all in the first row"),
];
const STATES: [(States, &str); 4] = [
    (States::Still, ""),
    (States::Expunged, "view expunged"),
    (States::Marked, "view marked"),
    (States::Both, "view expunged and marked"),
];
const TOLD: [(Told, &str); 3] = [
    (Told::All, ""),
    (Told::Half, "half told"),
    (Told::Nothing, "none told"),
];
const RIGHTS: [(Rights, &str); 3] = [
    (Rights::Both, ""),
    (Rights::SomeRead, "r on half"),
    (Rights::Neither, "no rights"),
];
const NUMBERS: [(Numbers, &str); 2] = [
    (Numbers::Small, ""),
    (Numbers::Large, "numbers of ten digits"),
];
const ASKED: [(Asked, &str); 6] = [
    (Asked::Groups(4, 4), ""),
    (Asked::Groups(2, 0), "2 groups"),
    (Asked::Groups(8, 16), "8 groups, 16 names"),
    (Asked::Delayed(8, 16), "8 groups, delayed"),
    (Asked::Nothing, "NOTIFY NONE"),
    (Asked::Fresh, "no NOTIFY yet"),
];
const HELD: [(usize, &str); 4] = [
    (0, ""),
    (QUEUE / 2, "queue half full"),
    (QUEUE - 1_000, "queue nearly full"),
    (QUEUE - 64, "queue full"),
];

/// All shapes that differ from this one in one part at most.
pub fn near(shape: &Shape) -> Vec<Shape> {
    let mut all = Vec::new();
    all.extend(IDS.map(|(ids, _)| Shape { ids, ..*shape }));
    all.extend(NAMES.map(|(names, _)| Shape { names, ..*shape }));
    all.extend(ROWS.map(|(rows, _)| Shape { rows, ..*shape }));
    all.extend(ENTRIES.map(|(entries, _)| Shape { entries, ..*shape }));
    all.extend(SPREADS.map(|(spread, _)| Shape { spread, ..*shape }));
    all.extend(STATES.map(|(states, _)| Shape { states, ..*shape }));
    all.extend(TOLD.map(|(told, _)| Shape { told, ..*shape }));
    all.extend(RIGHTS.map(|(rights, _)| Shape { rights, ..*shape }));
    all.extend(NUMBERS.map(|(numbers, _)| Shape { numbers, ..*shape }));
    all.extend(ASKED.map(|(asked, _)| Shape { asked, ..*shape }));
    all.extend(HELD.map(|(held, _)| Shape { held, ..*shape }));
    all
}

/// The parts that are not plain.
pub fn words(shape: &Shape) -> Vec<&'static str> {
    let mut all = vec![
        word(&IDS, shape.ids),
        word(&NAMES, shape.names),
        word(&ROWS, shape.rows),
        word(&ENTRIES, shape.entries),
        word(&SPREADS, shape.spread),
        word(&STATES, shape.states),
        word(&TOLD, shape.told),
        word(&RIGHTS, shape.rights),
        word(&NUMBERS, shape.numbers),
        word(&ASKED, shape.asked),
        word(&HELD, shape.held),
    ];
    all.retain(|word| !word.is_empty());
    all
}

fn word<T: PartialEq>(choices: &[(T, &'static str)], choice: T) -> &'static str {
    let known = choices.iter().find(|(one, _)| *one == choice);
    known.map_or("", |(_, word)| word)
}

/// A shape that is bad in many ways at once.
pub fn hostile(plain: Shape) -> Shape {
    Shape {
        ids: Ids::Slot32,
        names: Names::Digest,
        rows: Order::Falling,
        spread: Spread::Selected,
        states: States::Both,
        numbers: Numbers::Large,
        asked: Asked::Groups(8, 16),
        ..plain
    }
}
