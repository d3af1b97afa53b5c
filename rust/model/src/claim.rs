//! A claim: a sheet at work in a seat's region.
use crate::instruction::CellKind;
use crate::sheet::Sheet;
use crate::value::Value;
use std::collections::VecDeque;

/// A seat's share, and the cell number at which its region starts: "the sum of the shares before it".
#[derive(Clone, Copy, Debug, PartialEq, Eq)]
pub struct Region {
    pub start: u32,
    pub cells: u32,
    pub threads: u32,
}

#[derive(Clone, Debug, PartialEq)]
pub struct Thread {
    pub position: u16,
    pub frame: u16,
    pub accumulator: Value,
    /// When the thread joined its present list, by the claim's count of joinings.
    pub joined: u64,
}

#[derive(Clone, Debug, PartialEq)]
pub struct Cell {
    pub kind: CellKind,
    pub value: Option<Value>,
    /// Newest first.
    pub waiters: VecDeque<Thread>,
}

impl Cell {
    pub fn empty(kind: CellKind) -> Cell {
        Cell {
            kind,
            value: None,
            waiters: VecDeque::new(),
        }
    }
}

/// Why a claim is refused, and which ready thread ran into it.
#[derive(Clone, Copy, Debug, PartialEq, Eq)]
pub struct Refusal {
    pub number: u8,
    pub pick: usize,
}

#[derive(Clone, Copy, Debug, PartialEq, Eq)]
pub enum Status {
    Vacant = 0,
    Running = 1,
    Finished = 2,
    Deadlocked = 3,
    Refused = 4,
}

/// A live thread is in `ready` or in the waiters of one cell.
#[derive(Clone, Debug, PartialEq)]
pub struct Claim {
    pub region: Region,
    pub image: Vec<u8>,
    pub sheet: Sheet,
    /// As many as are used.
    pub cells: Vec<Cell>,
    pub ready: Vec<Thread>,
    pub refusal: Option<Refusal>,
    pub steps: u32,
    pub joinings: u64,
}

impl Claim {
    /// "Loading makes r empty I-cells at the region's start, fills the inputs, and makes one ready thread: position 0, frame at the
    /// region's start, accumulator nil."
    pub fn load(region: Region, image: &[u8], sheet: Sheet) -> Claim {
        let mut cells = vec![Cell::empty(CellKind::I); usize::from(sheet.slots)];
        for (cell, input) in cells[1..].iter_mut().zip(&sheet.inputs) {
            cell.value = Some(*input);
        }
        let mut claim = Claim {
            region,
            image: image.to_vec(),
            sheet,
            cells,
            ready: Vec::new(),
            refusal: None,
            steps: 0,
            joinings: 0,
        };
        claim.start_thread(0, region.start as u16);
        claim
    }

    /// Puts a new thread at the back of the ready order, accumulator nil.
    pub fn start_thread(&mut self, position: u16, frame: u16) {
        self.join_ready(Thread {
            position,
            frame,
            accumulator: Value::Nil,
            joined: 0,
        });
    }

    pub fn join_ready(&mut self, mut thread: Thread) {
        thread.joined = self.next_joining();
        self.ready.push(thread);
    }

    pub fn join_waiters(&mut self, cell: usize, mut thread: Thread) {
        thread.joined = self.next_joining();
        self.cells[cell].waiters.push_front(thread);
    }

    fn next_joining(&mut self) -> u64 {
        self.joinings += 1;
        self.joinings
    }

    pub fn waiting(&self) -> usize {
        self.cells.iter().map(|cell| cell.waiters.len()).sum()
    }

    pub fn live(&self) -> usize {
        self.ready.len() + self.waiting()
    }

    /// "4 refused; else 1 running (some thread ready), 2 finished (no live thread), 3 deadlocked (none ready, some waiting)."
    pub fn status(&self) -> Status {
        match self.refusal {
            Some(_) => Status::Refused,
            None if !self.ready.is_empty() => Status::Running,
            None if self.waiting() == 0 => Status::Finished,
            None => Status::Deadlocked,
        }
    }
}
