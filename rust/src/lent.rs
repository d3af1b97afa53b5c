//! The five calls over six borrowed buffers, as `include/lapisgable.h` declares them: any lengths, any contents, plain numbers.
//!
//! [`Machine`](crate::Machine) stands on these and is what a portal wants; this is for callers with buffers of their own.

/// The least number of elements of each buffer.
pub const BOOK: usize = 72;
pub const TAGS: usize = 2048;
pub const WORDS: usize = 2048;
pub const HEADS: usize = 256;
pub const ACCS: usize = 256;
pub const IMAGES: usize = 32768;

/// What a load answers: its number, and with 23 the place.
#[repr(C)]
#[derive(Clone, Copy, Debug, PartialEq, Eq)]
pub struct Lodged {
    pub number: u64,
    pub place: u64,
}

/// What a report answers, field by field.
#[repr(C)]
#[derive(Clone, Copy, Debug, PartialEq, Eq)]
pub struct Told {
    pub number: u32,
    pub status: u32,
    pub refusal: u32,
    pub position: u32,
    pub used: u32,
    pub live: u32,
    pub steps: u32,
    pub kind: u32,
    pub word: u64,
}

#[rustfmt::skip]
unsafe extern "C" {
    fn lapisgable_open(book: *mut u32, n_book: usize, tags: *mut u16, n_tags: usize, words: *mut u64, n_words: usize,
        heads: *mut u64, n_heads: usize, accs: *mut u64, n_accs: usize, images: *mut u8, n_images: usize,
        shares: *const u32, n_shares: usize) -> u32;
    fn lapisgable_load(book: *mut u32, n_book: usize, tags: *mut u16, n_tags: usize, words: *mut u64, n_words: usize,
        heads: *mut u64, n_heads: usize, accs: *mut u64, n_accs: usize, images: *mut u8, n_images: usize,
        seat: u32, image: *const u8, n_image: usize) -> Lodged;
    fn lapisgable_run(book: *mut u32, n_book: usize, tags: *mut u16, n_tags: usize, words: *mut u64, n_words: usize,
        heads: *mut u64, n_heads: usize, accs: *mut u64, n_accs: usize, images: *const u8, n_images: usize,
        schedule: *const u8, n_schedule: usize, answers: *mut u8, n_answers: usize) -> u32;
    fn lapisgable_report(book: *const u32, n_book: usize, tags: *const u16, n_tags: usize, words: *const u64, n_words: usize,
        heads: *const u64, n_heads: usize, accs: *const u64, n_accs: usize, images: *const u8, n_images: usize,
        seat: u32) -> Told;
    fn lapisgable_clear(book: *mut u32, n_book: usize, tags: *mut u16, n_tags: usize, words: *mut u64, n_words: usize,
        heads: *mut u64, n_heads: usize, accs: *mut u64, n_accs: usize, images: *mut u8, n_images: usize,
        seat: u32) -> u32;
}

/// The six buffers, borrowed to be looked at.
#[derive(Clone, Copy)]
pub struct Shown<'a> {
    pub book: &'a [u32],
    pub tags: &'a [u16],
    pub words: &'a [u64],
    pub heads: &'a [u64],
    pub accs: &'a [u64],
    pub images: &'a [u8],
}

/// The six buffers, borrowed. Each call tests what it is lent and leaves every byte where it does not answer 0.
pub struct Lent<'a> {
    pub book: &'a mut [u32],
    pub tags: &'a mut [u16],
    pub words: &'a mut [u64],
    pub heads: &'a mut [u64],
    pub accs: &'a mut [u64],
    pub images: &'a mut [u8],
}

// Safety, for each call below: a slice is valid for its length, exclusive slices overlap nothing, and the archive keeps no pointer.
#[rustfmt::skip]
impl Shown<'_> {
    /// Tells how a seat's claim stands.
    pub fn report(&self, seat: u32) -> Told {
        unsafe {
            lapisgable_report(self.book.as_ptr(), self.book.len(), self.tags.as_ptr(), self.tags.len(),
                self.words.as_ptr(), self.words.len(), self.heads.as_ptr(), self.heads.len(),
                self.accs.as_ptr(), self.accs.len(), self.images.as_ptr(), self.images.len(), seat)
        }
    }
}

#[rustfmt::skip]
impl Lent<'_> {
    /// Opens seats with these shares: cells and threads of each seat in turn. What the buffers held does not matter.
    pub fn open(&mut self, shares: &[u32]) -> u32 {
        unsafe {
            lapisgable_open(self.book.as_mut_ptr(), self.book.len(), self.tags.as_mut_ptr(), self.tags.len(),
                self.words.as_mut_ptr(), self.words.len(), self.heads.as_mut_ptr(), self.heads.len(),
                self.accs.as_mut_ptr(), self.accs.len(), self.images.as_mut_ptr(), self.images.len(),
                shares.as_ptr(), shares.len())
        }
    }

    /// Loads an image into a vacant seat.
    pub fn load(&mut self, seat: u32, image: &[u8]) -> Lodged {
        unsafe {
            lapisgable_load(self.book.as_mut_ptr(), self.book.len(), self.tags.as_mut_ptr(), self.tags.len(),
                self.words.as_mut_ptr(), self.words.len(), self.heads.as_mut_ptr(), self.heads.len(),
                self.accs.as_mut_ptr(), self.accs.len(), self.images.as_mut_ptr(), self.images.len(),
                seat, image.as_ptr(), image.len())
        }
    }

    /// Runs a schedule, two bytes an entry, and writes an answer an entry to the front of `answers`.
    pub fn run(&mut self, schedule: &[u8], answers: &mut [u8]) -> u32 {
        unsafe {
            lapisgable_run(self.book.as_mut_ptr(), self.book.len(), self.tags.as_mut_ptr(), self.tags.len(),
                self.words.as_mut_ptr(), self.words.len(), self.heads.as_mut_ptr(), self.heads.len(),
                self.accs.as_mut_ptr(), self.accs.len(), self.images.as_ptr(), self.images.len(),
                schedule.as_ptr(), schedule.len(), answers.as_mut_ptr(), answers.len())
        }
    }

    /// Tells how a seat's claim stands.
    pub fn report(&self, seat: u32) -> Told {
        self.shown().report(seat)
    }

    /// The same buffers, to be looked at.
    pub fn shown(&self) -> Shown<'_> {
        Shown { book: self.book, tags: self.tags, words: self.words, heads: self.heads, accs: self.accs, images: self.images }
    }

    /// Makes a seat vacant again.
    pub fn clear(&mut self, seat: u32) -> u32 {
        unsafe {
            lapisgable_clear(self.book.as_mut_ptr(), self.book.len(), self.tags.as_mut_ptr(), self.tags.len(),
                self.words.as_mut_ptr(), self.words.len(), self.heads.as_mut_ptr(), self.heads.len(),
                self.accs.as_mut_ptr(), self.accs.len(), self.images.as_mut_ptr(), self.images.len(), seat)
        }
    }
}
