//! Soundness of lent buffers: the list in the rules, and the canonical bytes of docs/STATE.md, all zero where they hold nothing.
use crate::buffers::{Buffers, MINIMA};
use crate::layout::decoded;
use model::sheet::Sheet;

/// A seat's part of each buffer.
struct Part<'a> {
    start: usize,
    book: &'a [u32],
    tags: &'a [u16],
    words: &'a [u64],
    heads: &'a [u64],
    accs: &'a [u64],
    image: &'a [u8],
}

/// Whether this is a state of the machine.
pub fn sound(buffers: &Buffers) -> bool {
    // "Its buffers have their minimum lengths."
    let mut lengths = buffers.lengths().into_iter().zip(MINIMA);
    if lengths.any(|(length, least)| length < least) {
        return false;
    }
    let Some(shares) = shares(&buffers.book[..72]) else {
        return false;
    };
    let mut start = 0;
    for number in 0..8 {
        let cells = shares.get(number).copied().unwrap_or(0);
        let part = Part {
            start,
            book: &buffers.book[9 * number..][..9],
            tags: &buffers.tags[start..][..cells],
            words: &buffers.words[start..][..cells],
            heads: &buffers.heads[32 * number..][..32],
            accs: &buffers.accs[32 * number..][..32],
            image: &buffers.images[4096 * number..][..4096],
        };
        if !(part.bare() || cells > 0 && part.holds_a_claim().is_some()) {
            return false;
        }
        start += cells;
    }
    zeros(&buffers.tags[start..2048]) && zeros(&buffers.words[start..2048])
}

/// "Shares obey the limits": the cells of each seat. The seats come first, and behind the last the book is zero.
fn shares(book: &[u32]) -> Option<Vec<usize>> {
    let seats: Vec<&[u32]> = book.chunks(9).take_while(|book| book[0] != 0).collect();
    let good = |book: &&[u32]| book[0] <= 1024 && (1..=32).contains(&book[1]);
    let cells: Vec<usize> = seats.iter().map(|book| book[0] as usize).collect();
    let limits = !seats.is_empty() && seats.iter().all(good) && cells.iter().sum::<usize>() <= 2048;
    (limits && zeros(&book[9 * seats.len()..])).then_some(cells)
}

impl Part<'_> {
    /// "Vacant seats are bare."
    fn bare(&self) -> bool {
        let cells = zeros(self.tags) && zeros(self.words);
        cells
            && zeros(&self.book[2..])
            && zeros(self.heads)
            && zeros(self.accs)
            && zeros(self.image)
    }

    fn holds_a_claim(&self) -> Option<()> {
        let length = self.book[2] as usize;
        demand((1..=4096).contains(&length) && zeros(&self.image[length..]))?;
        // "Images pass the reader."
        let sheet = Sheet::read(&self.image[..length]).ok()?;
        demand(self.book[3] as usize == sheet.code_start)?;
        // "Used cells lie between r and the share."
        let used = self.book[4] as usize;
        demand(used >= usize::from(sheet.slots) && used <= self.tags.len())?;
        demand(
            (0..used).all(|i| self.cell(i))
                && zeros(&self.tags[used..])
                && zeros(&self.words[used..]),
        )?;
        // "Live threads fit."
        let live = self.book[5] as usize;
        demand(live <= self.book[1] as usize)?;
        demand(
            (0..live).all(|i| self.thread(i, &sheet))
                && zeros(&self.heads[live..])
                && zeros(&self.accs[live..]),
        )?;
        demand(self.refusal(live))
    }

    /// "Values are well formed."
    fn cell(&self, i: usize) -> bool {
        let empty = self.tags[i] & 7 == 0 && self.words[i] == 0;
        self.tags[i] < 16
            && (empty || decoded(u64::from(self.tags[i] & 7), self.words[i]).is_some())
    }

    /// "Every live thread is in one place once and at an instruction's start; only empty cells have waiters."
    fn thread(&self, i: usize, sheet: &Sheet) -> bool {
        let place = usize::from(self.heads[i] as u16);
        let used = self.book[4] as usize;
        let waits = (self.start..self.start + used)
            .any(|l| place == l + 2 && self.tags[l - self.start] & 7 == 0);
        let position = (self.heads[i] >> 16) as u16;
        let accumulator = decoded(self.heads[i] >> 48, self.accs[i]);
        (place == 1 || waits) && sheet.code.contains_key(&position) && accumulator.is_some()
    }

    /// "A refused claim has a refusal 1 to 9 and a ready thread at its position."
    fn refusal(&self, live: usize) -> bool {
        let (number, place) = (self.book[6], self.book[7] as usize);
        match number {
            0 => place == 0,
            1..=9 => place < live && self.heads[place] as u16 == 1,
            _ => false,
        }
    }
}

fn demand(holds: bool) -> Option<()> {
    holds.then_some(())
}

fn zeros<T: Default + PartialEq>(elements: &[T]) -> bool {
    elements.iter().all(|element| *element == T::default())
}
