//! How a call's cost grows with mailboxes, messages, groups and what the queue holds: five sizes each.

use crate::fit::growth;
use crate::scene::{command, Scene};
use crate::shape::{Asked, Order, Shape, Spread, States};
use crate::table::Table;
use crate::timing::micros;
use borjavid::records::{self, Class};

const RUNS: usize = 8;
const TURNS: usize = 8;

/// The shape of a size, and the call on a shape.
type Grown = fn(Shape, usize) -> Shape;
type Made = fn(Shape) -> Scene;

/// What grows, and its five sizes.
const AXES: [(&str, [usize; 5], Grown); 4] = [
    ("mailboxes", [4, 8, 16, 32, 64], |shape, size| Shape {
        mailboxes: size,
        ..shape
    }),
    ("messages", [64, 128, 256, 512, 1024], |shape, size| Shape {
        messages: size,
        ..shape
    }),
    ("groups", [2, 3, 4, 6, 8], |shape, size| Shape {
        asked: Asked::Groups(size, 2 * (size - 2)),
        ..shape
    }),
    (
        "octets in the queue",
        [3_500, 7_000, 14_000, 28_000, 56_000],
        |shape, size| Shape {
            held: size,
            ..shape
        },
    ),
];

/// Typical calls. Half of the messages are in the selected mailbox.
const CALLS: [(&str, Made); 8] = [
    ("DR of one octet", |shape| {
        let memory = Shape {
            held: shape.held.max(100),
            ..shape
        }
        .memory();
        let record = records::drained(1).to_vec();
        Scene { memory, record }
    }),
    ("DR, entries falling", |shape| {
        let memory = Shape {
            entries: Order::Falling,
            ..shape
        }
        .memory();
        let record = records::drained(0).to_vec();
        Scene { memory, record }
    }),
    ("ME elsewhere", |shape| {
        // one less, for room
        let messages = shape.messages - 1;
        let memory = Shape { messages, ..shape }.memory();
        let row = memory.mailboxes[0];
        let record = records::message(row.id, row.uid_next, 0, 100, row.counter + 1);
        Scene { memory, record }
    }),
    ("FL selected", |shape| {
        let memory = shape.memory();
        let uid = memory.session.told - 1;
        let id = memory.session.selected;
        let counter = memory.mailbox(id).map_or(1, |row| row.counter + 1);
        let record = records::flags(id, uid, 1, counter);
        Scene { memory, record }
    }),
    ("CE 1, none waits", |shape| {
        let memory = shape.memory();
        let record = records::command_ended(Class::Rest);
        Scene { memory, record }
    }),
    ("CE 1, all expunged", |shape| {
        let memory = Shape {
            states: States::Expunged,
            ..shape
        }
        .memory();
        let record = records::command_ended(Class::Rest);
        Scene { memory, record }
    }),
    ("NOTIFY SET STATUS", |shape| {
        let groups = match shape.asked {
            Asked::Groups(groups, _) => groups,
            _ => 2,
        };
        command(shape.memory(), &notify(groups))
    }),
    ("ESEARCH", |shape| {
        let line = "s ESEARCH IN (personal) RETURN (COUNT) OR FLAGGED UNSEEN";
        command(shape.memory(), line)
    }),
];

/// A NOTIFY of so many groups, all but two of which tell of no mailbox.
fn notify(groups: usize) -> String {
    let mut line = "n NOTIFY SET STATUS (selected (MessageNew (UID) MessageExpunge))".to_string();
    for number in 2..groups {
        line += &format!(" (subtree (Old/{number} Gone/{number}) (MessageNew MessageExpunge))");
    }
    line + " (personal (MessageNew MessageExpunge MailboxName))"
}

pub fn measure() {
    let notes = [
        "Microseconds a call. 64 mailboxes, 1,024 messages, half of them selected, 4 groups and an empty queue, but for what grows.",
        "The growth is a fit to the five times, in nanoseconds: the plainest of constant, linear, n log n and quadratic that comes close.",
    ];
    let heads = [
        "grows", "call", "program", "1st", "2nd", "3rd", "4th", "5th", "growth",
    ];
    let mut table = Table::new("growth", &notes, &heads);
    for (axis, sizes, grown) in AXES {
        let cells = [axis, "sizes", "-"].map(str::to_string).into_iter();
        let cells = cells.chain(sizes.map(|size| size.to_string()));
        table.row(cells.chain(["-".to_string()]).collect());
        for (name, call) in CALLS {
            let plain = Shape {
                spread: Spread::Half,
                ..Shape::PLAIN
            };
            let scenes = sizes.map(|size| call(grown(plain, size)));
            for scene in &scenes {
                assert!(scene.agrees(), "{axis}: {name}");
            }
            for (program, times) in ["library", "full"].into_iter().zip(times(&scenes)) {
                let cells = [axis, name, program].map(str::to_string).into_iter();
                let cells = cells.chain(times.map(micros));
                table.row(cells.chain([growth(&sizes, &times)]).collect());
            }
        }
    }
    table.print();
}

/// The library's and the independent program's times, by turns: others use the machine too.
fn times(scenes: &[Scene; 5]) -> [[u64; 5]; 2] {
    let mut best = [[u64::MAX; 5]; 2];
    for _ in 0..TURNS {
        for (place, scene) in scenes.iter().enumerate() {
            best[0][place] = best[0][place].min(scene.library(RUNS));
            best[1][place] = best[1][place].min(scene.full(RUNS));
        }
    }
    best
}
