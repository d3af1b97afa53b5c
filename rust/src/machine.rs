//! A machine that owns its buffers.
use crate::lent::{self, Lent, Shown};
use crate::{Answers, Entry, Refusal, Report};

/// What a seat may use: 1 to 1,024 cells, 2,048 in all seats together, and 1 to 32 threads.
#[derive(Clone, Copy, Debug, PartialEq, Eq)]
pub struct Share {
    pub cells: u32,
    pub threads: u32,
}

/// The six buffers, side by side.
#[derive(Clone)]
struct Buffers {
    book: [u32; lent::BOOK],
    tags: [u16; lent::TAGS],
    words: [u64; lent::WORDS],
    heads: [u64; lent::HEADS],
    accs: [u64; lent::ACCS],
    images: [u8; lent::IMAGES],
}

impl Buffers {
    fn bare() -> Box<Buffers> {
        Box::new(Buffers {
            book: [0; lent::BOOK],
            tags: [0; lent::TAGS],
            words: [0; lent::WORDS],
            heads: [0; lent::HEADS],
            accs: [0; lent::ACCS],
            images: [0; lent::IMAGES],
        })
    }

    fn lent(&mut self) -> Lent<'_> {
        Lent {
            book: &mut self.book,
            tags: &mut self.tags,
            words: &mut self.words,
            heads: &mut self.heads,
            accs: &mut self.accs,
            images: &mut self.images,
        }
    }

    fn shown(&self) -> Shown<'_> {
        Shown {
            book: &self.book,
            tags: &self.tags,
            words: &self.words,
            heads: &self.heads,
            accs: &self.accs,
            images: &self.images,
        }
    }
}

/// One to eight seats, each with room for a claim.
#[derive(Clone)]
pub struct Machine {
    buffers: Box<Buffers>,
    seats: u32,
}

impl Machine {
    /// Opens a machine with a vacant seat for each share.
    ///
    /// ```
    /// use lapisgable::{Machine, Refusal};
    /// assert_eq!(Machine::open(&[]).err(), Some(Refusal::BadShares));
    /// ```
    pub fn open(shares: &[Share]) -> Result<Machine, Refusal> {
        let row: Vec<u32> = shares.iter().flat_map(|s| [s.cells, s.threads]).collect();
        let mut buffers = Buffers::bare();
        Refusal::told(buffers.lent().open(&row), 0)?;
        Ok(Machine {
            buffers,
            seats: shares.len() as u32,
        })
    }

    /// How many seats there are.
    pub fn seats(&self) -> u32 {
        self.seats
    }

    /// Loads a worksheet's image into a vacant seat. [`Sheet`](crate::Sheet) makes images.
    ///
    /// ```
    /// # use lapisgable::{Machine, Refusal, Share};
    /// let mut machine = Machine::open(&[Share { cells: 8, threads: 4 }])?;
    /// assert_eq!(machine.load(0, &[0x80, 1, 0x85, 0x04]), Err(Refusal::BadImage { place: 3 }));
    /// # Ok::<(), Refusal>(())
    /// ```
    pub fn load(&mut self, seat: u32, image: &[u8]) -> Result<(), Refusal> {
        let lodged = self.buffers.lent().load(seat, image);
        Refusal::told(lodged.number as u32, lodged.place)
    }

    /// Gives turns, at most 32,767 of them, and answers one an entry.
    ///
    /// ```
    /// # use lapisgable::{Answer, Entry, Machine, Refusal, Share};
    /// let mut machine = Machine::open(&[Share { cells: 8, threads: 4 }])?;
    /// let answers = machine.run(&[Entry { seat: 0, pick: 0 }, Entry { seat: 1, pick: 0 }])?;
    /// assert!(answers.eq([Answer::NotRunning, Answer::NoSeat]));
    /// # Ok::<(), Refusal>(())
    /// ```
    pub fn run(&mut self, entries: &[Entry]) -> Result<Answers, Refusal> {
        let schedule: Vec<u8> = entries.iter().flat_map(|e| [e.seat, e.pick]).collect();
        let mut answers = vec![0; entries.len()];
        self.run_bytes(&schedule, &mut answers)?;
        Ok(Answers::of(answers))
    }

    /// The same over bytes: two an entry, seat and pick; an answer's number an entry, at the front of `answers`.
    pub fn run_bytes(&mut self, schedule: &[u8], answers: &mut [u8]) -> Result<(), Refusal> {
        Refusal::told(self.buffers.lent().run(schedule, answers), 0)
    }

    /// Tells how a seat's claim stands.
    pub fn report(&self, seat: u32) -> Result<Report, Refusal> {
        let told = self.buffers.shown().report(seat);
        Refusal::told(told.number, 0)?;
        Ok(Report::told(told))
    }

    /// The reports of all seats, in order.
    pub fn reports(&self) -> impl Iterator<Item = Report> + '_ {
        (0..self.seats).map(|seat| self.report(seat).expect("the seat is there"))
    }

    /// Makes a seat vacant again, whatever its claim did.
    ///
    /// ```
    /// # use lapisgable::{Machine, Refusal, Share};
    /// let mut machine = Machine::open(&[Share { cells: 8, threads: 4 }])?;
    /// assert_eq!(machine.clear(0), Err(Refusal::VacantSeat));
    /// # Ok::<(), Refusal>(())
    /// ```
    pub fn clear(&mut self, seat: u32) -> Result<(), Refusal> {
        Refusal::told(self.buffers.lent().clear(seat), 0)
    }
}
