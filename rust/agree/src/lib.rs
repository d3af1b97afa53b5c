//! The proved machine and the model side by side: random cases, each made on both and compared in every byte.
pub mod author;
pub mod buffers;
pub mod chance;
pub mod damage;
pub mod harms;
pub mod images;
pub mod isolation;
pub mod layout;
pub mod pair;
pub mod runs;
pub mod sheets;
pub mod sound;
pub mod states;
pub mod tally;
pub mod values;
pub mod writer;

use chance::Chance;
use pair::Agreed;
use tally::Tally;

/// One case, fixed by a seed and its number.
pub fn case(seed: u64, number: u64, tally: &mut Tally) -> Agreed<()> {
    let chance = &mut Chance::new(seed, number);
    tally.cases += 1;
    match chance.below(40) {
        0..=14 => runs::from_open(chance, tally),
        15..=31 => runs::from_state(chance, tally),
        32..=34 => runs::of_images(chance, tally),
        35 => runs::of_numbers(chance, tally),
        36 => damage::of_fields(chance, tally),
        37 => damage::of_lengths(chance, tally),
        _ => isolation::of_a_seat(chance, tally),
    }
}
