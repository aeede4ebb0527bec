//! Seeded recordings of both shapes for `compare`: walks that follow the machine and hit its edges, damaged texts, long texts; lists of calls,
//! of steps and of boards; and pairs of tables for the two engines. The same seed and index always give the same recording, list or pair.

pub mod boards;
mod damage;
pub mod deadlines;
mod length;
pub mod lists;
pub mod random;
pub mod shapes;
pub mod walk;

use crate::list::List;
use random::Random;
use shapes::Shape;

pub struct Generated {
    pub family: &'static str,
    pub text: Vec<u8>,
}

/// The recording number `index` of a seed.
pub fn generate(seed: u64, index: u64) -> Generated {
    let mut random = Random::new(seed, index);
    match random.below(200) {
        0..=3 => length::long_text(&mut random),
        4 => Generated { family: "empty", text: Vec::new() },
        5..=109 => a_walk(&mut random),
        _ => damage::damaged(&mut random),
    }
}

fn a_walk(random: &mut Random) -> Generated {
    let shape = Shape::any(random);
    walk::recording(random, shape, 5_200)
}

/// The list number `index` of a seed, of so many calls.
pub fn generate_list(count: u64, seed: u64, index: u64) -> List {
    lists::list(&mut Random::new(seed, index), count)
}
