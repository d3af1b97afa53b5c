//! How a seat's claim stands.
use crate::lent::Told;
use crate::Value;
use std::fmt;

/// What a seat's claim did and holds.
#[derive(Clone, Copy, Debug, PartialEq)]
pub struct Report {
    pub status: Status,
    /// Cells used.
    pub cells: u32,
    /// Live threads, ready or waiting.
    pub threads: u32,
    pub steps: u32,
    /// Cell 0 of the root frame; none while it is empty, which differs from nil.
    pub result: Option<Value>,
}

/// A claim's status.
#[derive(Clone, Copy, Debug, PartialEq, Eq)]
pub enum Status {
    /// No claim is loaded.
    Vacant,
    /// Some thread is ready.
    Running,
    /// No thread is left.
    Finished,
    /// Threads are left, and all of them wait.
    Deadlocked,
    /// A thread ran into something forbidden, at a position of the code.
    Refused { why: Forbidden, position: u32 },
}

/// What an instruction may not do.
#[derive(Clone, Copy, Debug, PartialEq, Eq)]
#[repr(u8)]
pub enum Forbidden {
    NoSuchCell = 1,
    WrongCellKind,
    SlotEmpty,
    WrongValueKind,
    CellFull,
    BadSize,
    NoCellsLeft,
    NoThreadsLeft,
    Arithmetic,
}

impl Forbidden {
    const ALL: [Forbidden; 9] = [
        Forbidden::NoSuchCell,
        Forbidden::WrongCellKind,
        Forbidden::SlotEmpty,
        Forbidden::WrongValueKind,
        Forbidden::CellFull,
        Forbidden::BadSize,
        Forbidden::NoCellsLeft,
        Forbidden::NoThreadsLeft,
        Forbidden::Arithmetic,
    ];

    /// The scope document's number.
    pub fn number(self) -> u8 {
        self as u8
    }

    fn told(number: u32) -> Forbidden {
        Forbidden::ALL[number as usize - 1]
    }
}

impl fmt::Display for Forbidden {
    fn fmt(&self, f: &mut fmt::Formatter) -> fmt::Result {
        f.write_str(match self {
            Forbidden::NoSuchCell => "no such cell",
            Forbidden::WrongCellKind => "wrong kind of cell",
            Forbidden::SlotEmpty => "slot empty",
            Forbidden::WrongValueKind => "wrong kind of value",
            Forbidden::CellFull => "cell full",
            Forbidden::BadSize => "bad size",
            Forbidden::NoCellsLeft => "no cells left",
            Forbidden::NoThreadsLeft => "no threads left",
            Forbidden::Arithmetic => "out of range or divided by zero",
        })
    }
}

impl Report {
    pub(crate) fn told(told: Told) -> Report {
        let status = match told.status {
            0 => Status::Vacant,
            1 => Status::Running,
            2 => Status::Finished,
            3 => Status::Deadlocked,
            4 => Status::Refused {
                why: Forbidden::told(told.refusal),
                position: told.position,
            },
            n => unreachable!("no status has the number {n}"),
        };
        Report {
            status,
            cells: told.used,
            threads: told.live,
            steps: told.steps,
            result: Value::told(told.kind, told.word),
        }
    }
}
