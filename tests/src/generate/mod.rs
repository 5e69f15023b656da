//! Generated cases: a file and calls on it.

pub mod calls;
pub mod dress;
pub mod edf_keys;
pub mod fields;
pub mod flips;
pub mod gaps;
pub mod letters;
pub mod mutate;
pub mod origins;
pub mod pairs;
pub mod plan;
pub mod random;
pub mod reals;
pub mod shapes;
pub mod thorough;
pub mod valid;
pub mod values;
pub mod words;

use crate::answer::Call;
use random::Random;

/// A file and calls on it.
#[derive(Clone, Debug)]
pub struct Case {
    pub file: Vec<u8>,
    pub calls: Vec<Call>,
}

/// The case with this number of a seed: a quarter valid, half with structured mutations, a quarter with bytes changed.
pub fn case(seed: u64, number: usize) -> Case {
    let random = &mut Random::of(seed, number as u64);
    let mut plan = valid::valid(random);
    let way = random.below(100);
    for _ in 0..mutations(random, way) {
        mutate::mutate(random, &mut plan);
    }
    let mut file = plan.render();
    if way >= 80 {
        flips::flip(random, &mut file);
    }
    let calls = calls::calls(random, &plan, &file);
    Case { file, calls }
}

/// None for valid files and half of the flipped ones, else mostly one.
fn mutations(random: &mut Random, way: usize) -> usize {
    match way {
        0..=21 | 80..=89 => 0,
        _ => random.pick(&[1, 1, 1, 1, 1, 2, 2, 3]),
    }
}
