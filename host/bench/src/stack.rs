//! How deep a call goes into the stack, and what is lent. The stack below the caller is painted, and what the call wrote over
//! shows.

use crate::choices::{hostile, near, words};
use crate::scene::Scene;
use crate::shape::Shape;
use crate::table::Table;
use crate::tries::{is_of, plain, tries, KINDS};
use reference::call;
use std::hint::black_box;
use std::mem::size_of_val;
use std::thread;

/// The stack of the thread that calls, and how much of it is painted.
const STACK: usize = 4 << 20;
const PAINTED: usize = 2 << 20;
/// Left unpainted, as the painter's own frame is there.
const FRAME: usize = 2048;
const PAINT: u64 = 0x5AA5_C33C_9669_0FF0;

/// Octets of stack from the caller's frame down to the last that the call wrote, or the frame's size if it wrote none below.
#[inline(never)]
fn depth(call: impl FnOnce()) -> usize {
    let here = 0u64;
    let top = (black_box(&here) as *const u64 as usize) - FRAME;
    let bottom = top - PAINTED;
    let places = || (bottom..top).step_by(8);
    // the thread's stack reaches further down, and nothing else is in use there
    for place in places() {
        unsafe { (place as *mut u64).write_volatile(PAINT) }
    }
    call();
    let written = |&place: &usize| unsafe { (place as *const u64).read_volatile() != PAINT };
    FRAME + top - places().find(written).unwrap_or(top)
}

/// A call, and how deep it goes: by the library, and by the independent program.
struct Deep {
    shape: Shape,
    record: &'static str,
    depths: [usize; 2],
}

impl Deep {
    fn what(&self) -> String {
        let words = words(&self.shape);
        [&[self.record], words.as_slice()].concat().join("; ")
    }
}

/// Every record of the kind on the shape.
fn calls(kind: &str, shape: Shape) -> Vec<Deep> {
    let memory = shape.memory();
    let scene = |(word, record)| {
        let memory = memory.clone();
        (word, Scene { memory, record })
    };
    let tries = tries(kind, &shape, &memory).into_iter().map(scene);
    tries
        .filter(|(_, scene)| {
            let (answer, left) = scene.served();
            is_of(kind, answer.refusal, &left)
        })
        .map(|(record, scene)| Deep {
            shape,
            record,
            depths: depths(&scene),
        })
        .collect()
}

fn depths(scene: &Scene) -> [usize; 2] {
    let mut lent = scene.lent();
    let mut memory = scene.memory.clone();
    let library = depth(|| {
        let _ = black_box(lent.step(&scene.record));
    });
    let independent = depth(|| {
        black_box(call(&mut memory, &scene.record));
    });
    [library, independent]
}

/// The library's deepest call of the kind and the independent program's depth, on shapes that are plain or hostile or differ
/// from these in one part; then on plainer ones as long as that is as deep.
fn deepest(kind: &str) -> (Deep, usize) {
    let plain = plain(kind);
    let shapes = near(&plain).into_iter().chain(near(&hostile(plain)));
    let all: Vec<Deep> = shapes.flat_map(|shape| calls(kind, shape)).collect();
    let independent = all.iter().map(|deep| deep.depths[1]).max();
    let mut deepest = all
        .into_iter()
        .reduce(|one, other| {
            if other.depths[0] > one.depths[0] {
                other
            } else {
                one
            }
        })
        .expect("a record of its kind");
    while let Some(plainer) = as_deep(kind, &deepest) {
        deepest = plainer;
    }
    (deepest, independent.unwrap_or(0))
}

fn as_deep(kind: &str, deep: &Deep) -> Option<Deep> {
    let mut shapes = near(&deep.shape);
    shapes.retain(|shape| words(shape).len() < words(&deep.shape).len());
    let mut all = shapes.into_iter().flat_map(|shape| calls(kind, shape));
    all.find(|other| other.depths[0] >= deep.depths[0])
}

pub fn measure() {
    let thread = thread::Builder::new().stack_size(STACK).spawn(print_stack);
    thread.expect("a thread").join().expect("its end");
    print_lent();
}

fn print_stack() {
    let notes = ["Octets of stack below the caller that the deepest call of each kind writes to."];
    let heads = ["kind", "library", "full", "the library's deepest"];
    let mut table = Table::new("stack", &notes, &heads);
    for kind in KINDS {
        let (deepest, independent) = deepest(kind);
        table.row(vec![
            kind.to_string(),
            deepest.depths[0].to_string(),
            independent.to_string(),
            deepest.what(),
        ]);
    }
    table.print();
}

/// What a session of the full size is, as the host keeps it.
fn print_lent() {
    let memory = plain("DR").memory();
    let scene = Scene {
        memory,
        record: Vec::new(),
    };
    let mut lent = scene.lent();
    let lent = lent.lend();
    let pieces = [
        ("mailbox table", size_of_val(lent.rows)),
        ("message table", size_of_val(lent.words)),
        ("counts", size_of_val(lent.counts)),
        ("session", size_of_val(lent.session)),
        ("queue", size_of_val(lent.queue)),
    ];
    let notes = ["Octets that a host lends for one session: 64 mailboxes, 1,024 messages, the longest queue. The library keeps nothing else."];
    let mut table = Table::new("lent", &notes, &["piece", "octets"]);
    for (piece, octets) in pieces {
        table.row(vec![piece.to_string(), octets.to_string()]);
    }
    let all: usize = pieces.iter().map(|(_, octets)| octets).sum();
    table.row(vec!["all".to_string(), all.to_string()]);
    table.print();
}
