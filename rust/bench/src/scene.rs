//! A state made ready and the entries that run on it, in few words: what is timed and what is counted.
use crate::both::Both;
use lapisgable::Share;

/// The most entries of a schedule.
pub const LONGEST: usize = 32_767;

pub struct Scene {
    seats: u32,
    share: Share,
    /// The sheet in every seat; empty if all are vacant.
    image: Vec<u8>,
    /// The entries that make the state ready.
    first: Vec<u8>,
    /// The entries that repeat; none for a call without an entry.
    turns: Vec<u8>,
}

impl Scene {
    /// So many seats with this share of cells and threads, all vacant.
    pub fn seats(seats: u32, cells: u32, threads: u32) -> Scene {
        let share = Share { cells, threads };
        let [image, first, turns] = [const { Vec::new() }; 3];
        Scene {
            seats,
            share,
            image,
            first,
            turns,
        }
    }

    pub fn load(self, image: Vec<u8>) -> Scene {
        Scene { image, ..self }
    }

    pub fn first(self, first: Vec<u8>) -> Scene {
        Scene { first, ..self }
    }

    pub fn turns(self, turns: Vec<u8>) -> Scene {
        Scene { turns, ..self }
    }

    pub fn both(&self) -> Both {
        let open = Both::open(&vec![self.share; self.seats as usize]);
        let loaded = if self.image.is_empty() { 0 } else { self.seats };
        let ready = (0..loaded).fold(open, |both, seat| both.load(seat, &self.image));
        ready.run(&self.first)
    }

    pub fn schedule(&self, count: usize) -> Vec<u8> {
        let turns = self.turns.iter().copied().cycle();
        turns.take(2 * count).collect()
    }

    /// A case file: six numbers of four bytes, low byte first, and the three parts whose lengths are the last three.
    pub fn file(&self) -> Vec<u8> {
        let parts = [&self.image, &self.first, &self.turns];
        let lengths = parts.map(|part| part.len() as u32);
        let numbers = [self.seats, self.share.cells, self.share.threads];
        let head = numbers.into_iter().chain(lengths);
        let mut file: Vec<u8> = head.flat_map(u32::to_le_bytes).collect();
        parts.iter().for_each(|part| file.extend(*part));
        file
    }
}
