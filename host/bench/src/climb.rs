//! The worst call of a kind, found by trying: whatever single change of the memory or the record makes the call slower is kept,
//! until none does; then whatever does not matter goes back to plain.

use crate::choices::{hostile, near, words};
use crate::scene::Scene;
use crate::shape::{Order, Shape, QUEUE};
use crate::tries::{is_of, plain, tries};
use reference::memory::RESERVE;

/// A gain below this part is noise.
const GAIN: f64 = 1.08;
/// What is left at least for a plainer call.
const LOSS: f64 = 0.95;
const RUNS: usize = 3;
/// How often two calls are timed by turns: others use the machine too, and slow both down alike.
const TURNS: usize = 3;

/// A call that is tried: a shape, and the place of a record among those of the kind.
#[derive(Clone, Copy)]
pub struct Call {
    pub shape: Shape,
    record: usize,
}

impl Call {
    pub fn plain(kind: &str) -> Call {
        Call {
            shape: plain(kind),
            record: 0,
        }
    }

    /// Bad in many ways at once. The longest refusal is that of a command's answer, which needs a full queue.
    pub fn hostile(kind: &str) -> Call {
        let mut shape = hostile(plain(kind));
        if kind == "refused" {
            shape.held = QUEUE - RESERVE;
        }
        Call { shape, record: 0 }
    }

    /// Its scene, and what the record is; none where it is not of the kind.
    pub fn scene(&self, kind: &str) -> Option<(Scene, &'static str)> {
        let memory = self.shape.memory();
        let (word, record) = tries(kind, &self.shape, &memory).swap_remove(self.record);
        let scene = Scene { memory, record };
        let (answer, left) = scene.served();
        is_of(kind, answer.refusal, &left).then_some((scene, word))
    }
}

/// A call, which is left for slower ones.
struct Climb<'a> {
    kind: &'a str,
    by_calls: bool,
    at: Call,
    scene: Scene,
    time: u64,
}

impl Climb<'_> {
    /// None where the call is not of the kind.
    fn begin(kind: &str, by_calls: bool, at: Call) -> Option<Climb<'_>> {
        let (scene, _) = at.scene(kind)?;
        let time = scene.library(TURNS * RUNS);
        Some(Climb {
            kind,
            by_calls,
            at,
            scene,
            time,
        })
    }

    /// Goes to the call if it takes so many times as long as the one stood at. Runs can only be too slow, so that a single
    /// quick one is enough to turn it down.
    fn goes(&mut self, call: Call, times: f64) -> bool {
        let Some((scene, _)) = call.scene(self.kind) else {
            return false;
        };
        if (scene.library(1) as f64) < self.time as f64 * times {
            return false;
        }
        let (mut stood, mut time) = (u64::MAX, u64::MAX);
        for _ in 0..TURNS {
            stood = stood.min(self.scene.library(RUNS));
            time = time.min(scene.library(RUNS));
        }
        self.time = self.time.min(stood);
        let goes = time as f64 >= stood as f64 * times;
        if goes {
            (self.at, self.scene, self.time) = (call, scene, time);
        }
        goes
    }

    fn consider_records(&mut self) -> bool {
        let shape = self.at.shape;
        let count = tries(self.kind, &shape, &shape.memory()).len();
        let mut gained = false;
        for record in 0..count {
            gained |= self.goes(Call { shape, record }, GAIN);
        }
        gained
    }

    fn consider_shapes(&mut self) -> bool {
        let mut gained = false;
        for place in 0..self.near().len() {
            // what was gained on the way stays
            let shape = self.near()[place];
            let record = self.at.record;
            if shape != self.at.shape {
                gained |= self.goes(Call { shape, record }, GAIN);
            }
        }
        gained
    }

    /// Memory that calls alone make has each mailbox's UIDs rising.
    fn near(&self) -> Vec<Shape> {
        let mut shapes = near(&self.at.shape);
        shapes.retain(|shape| !self.by_calls || shape.entries == Order::Rising);
        shapes
    }

    /// Every single change, until none gains.
    fn up(mut self) -> Self {
        while self.consider_records() | self.consider_shapes() {}
        self
    }

    /// What can be plain with little loss becomes so.
    fn plainer(mut self) -> Self {
        let least = self.time as f64 * LOSS;
        while self.goes_plainer(least) {}
        self
    }

    fn goes_plainer(&mut self, least: f64) -> bool {
        let record = self.at.record;
        let mut shapes = self.near();
        shapes.retain(|shape| words(shape).len() < words(&self.at.shape).len());
        shapes.into_iter().any(|shape| {
            let times = least / self.time as f64;
            self.goes(Call { shape, record }, times)
        })
    }
}

/// From several starts, the slowest: a plain shape, and one that is known to be bad.
pub fn worst(kind: &str, by_calls: bool, known: Call) -> Call {
    let climbs = [Call::plain(kind), known]
        .into_iter()
        .filter_map(|call| Climb::begin(kind, by_calls, call))
        .map(Climb::up);
    let slowest = climbs.max_by_key(|climb| climb.time);
    slowest.map_or(known, |climb| climb.plainer().at)
}
