//! Ways to set a field of the lent state wrong.
use crate::buffers::Buffers;
use crate::chance::Chance;
use model::{Machine, Seat};

/// One element of one buffer set to something.
#[derive(Clone, Copy, Debug)]
pub enum Harm {
    Book(usize, u32),
    Tag(usize, u16),
    Word(usize, u64),
    Head(usize, u64),
    Acc(usize, u64),
    Image(usize, u8),
}

impl Harm {
    pub fn put(self, buffers: &mut Buffers) {
        match self {
            Harm::Book(at, value) => buffers.book[at] = value,
            Harm::Tag(at, value) => buffers.tags[at] = value,
            Harm::Word(at, value) => buffers.words[at] = value,
            Harm::Head(at, value) => buffers.heads[at] = value,
            Harm::Acc(at, value) => buffers.accs[at] = value,
            Harm::Image(at, value) => buffers.images[at] = value,
        }
    }
}

/// Every book number, and a choice of all other fields, of used and unused places alike.
pub fn harms(chance: &mut Chance, machine: &Machine, whole: &Buffers) -> Vec<Harm> {
    let mut harms = Vec::new();
    for (at, old) in whole.book[..72].iter().enumerate() {
        let near = [
            old.wrapping_add(1),
            old.wrapping_sub(1),
            old ^ 1 << chance.below(32),
        ];
        harms.push(Harm::Book(at, chance.choose(&near)));
        harms.push(Harm::Book(
            at,
            chance.choose(&[0, 1, 9, 10, 32, 33, 1024, 1025, 4096, 4097, u32::MAX]),
        ));
    }
    for (number, seat) in machine.seats.iter().enumerate() {
        harm_seat(chance, number, seat, whole, &mut harms);
    }
    harm_cell(chance, 2047, whole, &mut harms);
    harm_thread(chance, 255, whole, &mut harms);
    harms.push(Harm::Image(32_767, 1));
    // Behind the minimum, where the buffers are longer.
    harms.push(Harm::Image(whole.images.len() - 1, chance.byte()));
    harms.push(Harm::Head(whole.heads.len() - 1, chance.word()));
    harms
}

/// Threads, cells and image bytes of one seat: the first ones, any, and those behind the last.
fn harm_seat(
    chance: &mut Chance,
    number: usize,
    seat: &Seat,
    whole: &Buffers,
    harms: &mut Vec<Harm>,
) {
    let claim = seat.claim.as_ref();
    let live = claim.map_or(0, |claim| claim.live());
    for i in (0..live.min(4)).chain([live.min(31), 31, chance.below(32)]) {
        harm_thread(chance, 32 * number + i, whole, harms);
    }
    let used = claim.map_or(0, |claim| claim.cells.len());
    for i in [
        0,
        used,
        chance.below(used + 1),
        chance.below(seat.region.cells as usize),
    ] {
        harm_cell(
            chance,
            (seat.region.start as usize + i).min(2047),
            whole,
            harms,
        );
    }
    let length = claim.map_or(0, |claim| claim.image.len());
    let within = [0, 0, 0].map(|_| chance.below(length + 1));
    for offset in [0, 1, 2, length, 4095, chance.below(4096)]
        .iter()
        .chain(&within)
    {
        let at = 4096 * number + offset.min(&4095);
        harms.push(Harm::Image(at, whole.images[at] ^ 1 << chance.below(8)));
    }
}

/// Each part of a head, and its accumulator.
fn harm_thread(chance: &mut Chance, at: usize, whole: &Buffers, harms: &mut Vec<Harm>) {
    for shift in [0, 16, 32, 48] {
        let old = whole.heads[at] >> shift & 0xFFFF;
        let near = [old + 1, old.wrapping_sub(1), old ^ 1 << chance.below(16)];
        let part = match chance.one_in(2) {
            true => chance.choose(&near) & 0xFFFF,
            false => chance.choose(&[0, 1, 2, 3, 5, 6, 13, 2049, 65_535]),
        };
        harms.push(Harm::Head(
            at,
            whole.heads[at] & !(0xFFFF << shift) | part << shift,
        ));
    }
    harms.push(Harm::Acc(at, word(chance, whole.accs[at])));
}

fn harm_cell(chance: &mut Chance, at: usize, whole: &Buffers, harms: &mut Vec<Harm>) {
    harms.push(Harm::Tag(at, whole.tags[at] ^ 1 << chance.below(16)));
    harms.push(Harm::Tag(at, chance.below(16) as u16));
    harms.push(Harm::Word(at, word(chance, whole.words[at])));
}

/// A word at an edge of some kind of value.
fn word(chance: &mut Chance, old: u64) -> u64 {
    let infinity = f64::INFINITY.to_bits();
    let bit = old ^ 1 << chance.below(64);
    chance.choose(&[
        0,
        1,
        2,
        65_535,
        65_536,
        infinity,
        infinity - 1,
        infinity + 1,
        1 << 63,
        bit,
    ])
}
