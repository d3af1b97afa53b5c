//! Entries of a schedule, and what each answers.
use std::vec::IntoIter;

/// A turn: the thread at place `pick`, from 0, of a seat's ready order runs one instruction.
#[derive(Clone, Copy, Debug, PartialEq, Eq)]
pub struct Entry {
    pub seat: u8,
    pub pick: u8,
}

/// What came of an entry. The first four count as a step of the claim.
#[derive(Clone, Copy, Debug, PartialEq, Eq)]
#[repr(u8)]
pub enum Answer {
    RanOn,
    Ended,
    Waits,
    /// The claim is refused from now on.
    Refused,
    NoSeat,
    NotRunning,
    /// The pick is not below the count of ready threads.
    NoThread,
    StepsFull,
}

impl Answer {
    const ALL: [Answer; 8] = [
        Answer::RanOn,
        Answer::Ended,
        Answer::Waits,
        Answer::Refused,
        Answer::NoSeat,
        Answer::NotRunning,
        Answer::NoThread,
        Answer::StepsFull,
    ];

    /// The scope document's number.
    pub fn number(self) -> u8 {
        self as u8
    }

    /// The answer with a number, as [`Machine::run_bytes`](crate::Machine::run_bytes) writes it.
    pub fn with_number(number: u8) -> Option<Answer> {
        Answer::ALL.get(number as usize).copied()
    }
}

/// The answers of a run, one an entry, in order.
#[derive(Clone, Debug)]
pub struct Answers {
    bytes: IntoIter<u8>,
}

impl Answers {
    pub(crate) fn of(bytes: Vec<u8>) -> Answers {
        Answers {
            bytes: bytes.into_iter(),
        }
    }
}

impl Iterator for Answers {
    type Item = Answer;

    fn next(&mut self) -> Option<Answer> {
        let byte = self.bytes.next()?;
        Some(Answer::with_number(byte).expect("an entry answers 0 to 7"))
    }

    fn size_hint(&self) -> (usize, Option<usize>) {
        self.bytes.size_hint()
    }
}

impl ExactSizeIterator for Answers {}
