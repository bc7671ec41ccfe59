//! One call of the library or of the twin, again and again, for a profiler that counts within `counted`.

use crate::both::{Both, ALLOWANCE, PENDING, TORN};
use crate::random::Random;
use crate::twin;
use std::hint::black_box;

/// What a profiler counts.
#[no_mangle]
#[inline(never)]
fn counted(work: &mut dyn FnMut()) {
    work();
}

/// One call of the library; `number` is the key, or the block.
fn library(call: &str, both: &mut Both, number: u32) {
    match call {
        "look-up" => drop(black_box(both.library.look_up(&both.image, number))),
        "insert" => assert_eq!(both.library.insert(&both.image, number, number), 0),
        "commit" => assert_eq!(both.library.commit(&mut both.image, &TORN, ALLOWANCE).refusal, 0),
        "forecast" => assert_eq!(black_box(both.library.forecast(&both.image)).refusal, 0),
        "mount" => assert_eq!(both.library.mount(&mut both.image, &TORN, ALLOWANCE).refusal, 0),
        "block-report" => drop(black_box(both.library.block_report(&both.image, number))),
        _ => assert_eq!(both.library.format(&mut both.image, &TORN, ALLOWANCE).refusal, 0),
    }
}

/// One call of the twin.
fn twin(call: &str, both: &mut Both, number: u32) {
    match call {
        "look-up" => drop(black_box(twin::look_up(&both.twin, &both.twin_image, number))),
        "insert" => assert_eq!(both.twin.insert(&both.twin_image, number, number), 0),
        "commit" => assert_eq!(both.twin.commit(&mut both.twin_image, &TORN, ALLOWANCE).refusal, 0),
        "forecast" => assert_eq!(black_box(both.twin.forecast(&both.twin_image)).refusal, 0),
        "mount" => assert_eq!(twin::mount(&mut both.twin, &mut both.twin_image, &TORN, ALLOWANCE).refusal, 0),
        "block-report" => drop(black_box(twin::block_report(&both.twin, &both.twin_image, number))),
        _ => assert_eq!(twin::format(&mut both.twin, &mut both.twin_image, &TORN, ALLOWANCE).refusal, 0),
    }
}

/// `rounds` calls of the library or of the twin on full trees; those that fill them are not counted. Inserts are made with 0 to 15
/// updates pending, commits and forecasts with 16; block reports are of all blocks in turn.
pub fn run(call: &str, blocks: usize, rounds: usize, who: &str) {
    let mut random = Random::new(blocks as u64);
    let (mut both, keys) = Both::filled(blocks, usize::MAX, &mut random);
    both.churn(&keys, 100, &mut random);
    let one = if who == "twin" { twin } else { library };
    for round in 0..rounds {
        let full = if matches!(call, "commit" | "forecast") { PENDING } else { round % PENDING };
        while both.pending < full {
            assert_eq!(both.insert(random.pick(&keys), random.next() as u32), 0);
        }
        let number = if call == "block-report" { (round % blocks) as u32 } else { random.pick(&keys) };
        let mut at = both.clone();
        counted(&mut || one(call, &mut at, number));
        if both.pending >= PENDING - 1 {
            both.commit();
        }
    }
}
