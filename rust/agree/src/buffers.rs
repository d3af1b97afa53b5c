//! Six buffers that a test owns and lends.
use crate::chance::Chance;
use lapisgable::lent::{Lent, ACCS, BOOK, HEADS, IMAGES, TAGS, WORDS};
use std::fmt::Debug;

#[derive(Clone, Debug, PartialEq)]
pub struct Buffers {
    pub book: Vec<u32>,
    pub tags: Vec<u16>,
    pub words: Vec<u64>,
    pub heads: Vec<u64>,
    pub accs: Vec<u64>,
    pub images: Vec<u8>,
}

/// The least number of elements of each, in the order of the fields.
pub const MINIMA: [usize; 6] = [BOOK, TAGS, WORDS, HEADS, ACCS, IMAGES];

impl Buffers {
    /// Minimum lengths, all zero.
    pub fn bare() -> Buffers {
        Buffers {
            book: vec![0; BOOK],
            tags: vec![0; TAGS],
            words: vec![0; WORDS],
            heads: vec![0; HEADS],
            accs: vec![0; ACCS],
            images: vec![0; IMAGES],
        }
    }

    /// Lengths at or somewhat above the minimum, with anything in them.
    pub fn garbage(chance: &mut Chance) -> Buffers {
        let lengths = MINIMA.map(|least| least + chance.choose(&[0, 1, 40]));
        let mut word = || chance.word();
        Buffers {
            book: (0..lengths[0]).map(|_| word() as u32).collect(),
            tags: (0..lengths[1]).map(|_| word() as u16).collect(),
            words: (0..lengths[2]).map(|_| word()).collect(),
            heads: (0..lengths[3]).map(|_| word()).collect(),
            accs: (0..lengths[4]).map(|_| word()).collect(),
            images: (0..lengths[5]).map(|_| word() as u8).collect(),
        }
    }

    pub fn lent(&mut self) -> Lent<'_> {
        Lent {
            book: &mut self.book,
            tags: &mut self.tags,
            words: &mut self.words,
            heads: &mut self.heads,
            accs: &mut self.accs,
            images: &mut self.images,
        }
    }

    pub fn lengths(&self) -> [usize; 6] {
        [
            self.book.len(),
            self.tags.len(),
            self.words.len(),
            self.heads.len(),
            self.accs.len(),
            self.images.len(),
        ]
    }

    /// Cuts the buffer with this number, in the order of the fields.
    pub fn cut(&mut self, which: usize, length: usize) {
        match which {
            0 => self.book.truncate(length),
            1 => self.tags.truncate(length),
            2 => self.words.truncate(length),
            3 => self.heads.truncate(length),
            4 => self.accs.truncate(length),
            _ => self.images.truncate(length),
        }
    }

    /// A seat's part of each buffer.
    pub fn parts(&self, seat: usize, start: usize, cells: usize) -> Buffers {
        Buffers {
            book: self.book[9 * seat..][..9].to_vec(),
            tags: self.tags[start..][..cells].to_vec(),
            words: self.words[start..][..cells].to_vec(),
            heads: self.heads[32 * seat..][..32].to_vec(),
            accs: self.accs[32 * seat..][..32].to_vec(),
            images: self.images[4096 * seat..][..4096].to_vec(),
        }
    }

    /// An error that names the first element that is not as expected.
    pub fn same(&self, expected: &Buffers) -> Result<(), String> {
        same("book", &self.book, &expected.book)?;
        same("tags", &self.tags, &expected.tags)?;
        same("words", &self.words, &expected.words)?;
        same("heads", &self.heads, &expected.heads)?;
        same("accs", &self.accs, &expected.accs)?;
        same("images", &self.images, &expected.images)
    }
}

/// An error that names the first element of one buffer that is not as expected.
pub fn same<T: PartialEq + Debug>(name: &str, found: &[T], expected: &[T]) -> Result<(), String> {
    if found == expected {
        return Ok(());
    }
    let at = (0..found.len())
        .find(|i| found.get(*i) != expected.get(*i))
        .unwrap_or(found.len());
    Err(format!(
        "{name}[{at}] is {:x?}, expected {:x?}",
        found.get(at),
        expected.get(at)
    ))
}
