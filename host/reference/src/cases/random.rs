//! Random cases, with what the independent program makes of each call.

use super::{made, Case};
use crate::generate::Generator;
use crate::memory::{MAILBOXES, MESSAGES, QUEUE_LEAST, QUEUE_MOST};
use crate::random::Random;
use crate::Memory;

/// Cases of so many calls in all, each handed over as it is made.
pub fn cases<E>(
    seed: u64,
    count: usize,
    mut take: impl FnMut(&Case) -> Result<(), E>,
) -> Result<(), E> {
    let mut random = Random::new(seed);
    let (mut left, mut number) = (count, 0);
    while left > 0 {
        number += 1;
        let case = case(&mut random, &format!("random {seed} {number}"), left);
        left -= case.calls.len();
        take(&case)?;
    }
    Ok(())
}

/// One case of at most so many calls.
fn case(random: &mut Random, name: &str, most: usize) -> Case {
    let wide = random.chance(8);
    let (queue, mailboxes, messages) = (
        queue(random),
        length(random, MAILBOXES, wide),
        length(random, MESSAGES, wide),
    );
    let length = if wide {
        random.between(500, 4500)
    } else {
        random.between(1, 400)
    };
    let mut generator = if wide {
        Generator::wide(random.number())
    } else {
        Generator::new(random.number())
    };
    let mut memory = Memory::new(queue, mailboxes, messages);
    let calls = (0..length.min(most))
        .map(|_| {
            let octets = generator.propose(&memory);
            made(&mut memory, octets)
        })
        .collect();
    Case {
        name: name.to_string(),
        queue,
        mailboxes,
        messages,
        calls,
    }
}

/// Mostly small, so that it fills; now and then at an end, seldom beyond one.
fn queue(random: &mut Random) -> usize {
    let any = random.between(QUEUE_LEAST, QUEUE_MOST);
    let small = random.between(QUEUE_LEAST, 2000);
    let unlawful = random.pick(&[0, QUEUE_LEAST - 1, QUEUE_MOST + 1]);
    match random.below(200) {
        0 => unlawful,
        1..=40 => QUEUE_LEAST,
        41..=120 => small,
        121..=150 => 8192,
        151..=190 => any,
        _ => QUEUE_MOST,
    }
}

/// From none to all, seldom one too many; wide streams have most of it.
fn length(random: &mut Random, most: usize, wide: bool) -> usize {
    let any = random.between(0, most);
    let few = random.between(0, most.min(12));
    match random.below(200) {
        0 => most + 1,
        1..=60 => most,
        61..=80 if !wide => 0,
        81..=120 if !wide => few,
        121..=160 => any,
        _ => most,
    }
}
