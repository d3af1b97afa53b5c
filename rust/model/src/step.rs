//! One instruction of one thread. Everything is tested before anything is written, so a refusal leaves all as it was.
use crate::claim::{Cell, Claim, Refusal, Thread};
use crate::instruction::CellKind::{self, I, M};
use crate::instruction::Instruction::*;
use crate::value::{Operation, Value};

const NO_SUCH_CELL: u8 = 1;
const WRONG_CELL_KIND: u8 = 2;
const SLOT_EMPTY: u8 = 3;
const WRONG_VALUE_KIND: u8 = 4;
const CELL_FULL: u8 = 5;
const BAD_SIZE: u8 = 6;
const NO_CELLS_LEFT: u8 = 7;
const NO_THREADS_LEFT: u8 = 8;
const ARITHMETIC: u8 = 9;

enum Outcome {
    RanOn,
    Ended,
    Waits { on: usize },
}

use Outcome::*;

impl Claim {
    /// Runs the pick-th ready thread, which "keeps its place unless it ends or waits"; the answer, 0 to 3.
    pub fn turn(&mut self, pick: usize) -> u8 {
        self.steps += 1;
        let mut thread = self.ready[pick].clone();
        match self.perform(&mut thread) {
            Ok(RanOn) => {
                self.ready[pick] = thread;
                0
            }
            Ok(Ended) => {
                self.ready.remove(pick);
                1
            }
            Ok(Waits { on }) => {
                self.ready.remove(pick);
                self.join_waiters(on, thread);
                2
            }
            Err(number) => {
                self.refusal = Some(Refusal { number, pick });
                3
            }
        }
    }

    fn perform(&mut self, thread: &mut Thread) -> Result<Outcome, u8> {
        let line = self.sheet.code[&thread.position];
        let here = std::mem::replace(&mut thread.position, line.next);
        match line.instruction {
            End => return Ok(Ended),
            Constant(value) => thread.accumulator = value,
            OwnFrame => thread.accumulator = Value::Location(thread.frame),
            Load(s) => thread.accumulator = self.slot(thread, s)?,
            Touch(s) => return self.touch(thread, s),
            Fetch(kind, s) => return self.fetch(thread, here, kind, s, 0),
            Get(s, k) => return self.fetch(thread, here, I, s, k),
            Store(s) => self.fill(slot_place(thread, s), I, thread.accumulator)?,
            Put(s, k) => self.fill(
                self.location(thread, s)? + u32::from(k),
                I,
                thread.accumulator,
            )?,
            StoreAt(kind, s, t) => {
                let (place, value) = (self.location(thread, s)?, self.slot(thread, t)?);
                self.fill(place, kind, value)?;
            }
            Alloc(kind, s) => thread.accumulator = self.allocate(thread, kind, s)?,
            Frame(n) => thread.accumulator = self.make_cells(I, u32::from(n))?,
            Compute(operation, s, t) => {
                thread.accumulator = self.compute(thread, operation, s, t)?
            }
            Offset(s, t) => thread.accumulator = self.offset(thread, s, t)?,
            Switch(s, a, b) => thread.position = if self.boolean(thread, s)? { a } else { b },
            Spawn(a) => self.spawn(a, thread.frame)?,
            Apply(a, s) => {
                let frame = self.location(thread, s)?;
                self.spawn(a, frame as u16)?;
            }
        }
        Ok(RanOn)
    }

    /// "Cells are reached only inside the seat's region and below its used count."
    fn cell(&self, place: u32, kind: CellKind) -> Result<usize, u8> {
        let index = place.checked_sub(self.region.start).ok_or(NO_SUCH_CELL)? as usize;
        let cell = self.cells.get(index).ok_or(NO_SUCH_CELL)?;
        if cell.kind == kind {
            Ok(index)
        } else {
            Err(WRONG_CELL_KIND)
        }
    }

    /// "Reading a slot needs, in this order: the cell exists, it is an I-cell, it is full, its value has the kind wanted."
    fn slot(&self, thread: &Thread, s: u8) -> Result<Value, u8> {
        let index = self.cell(slot_place(thread, s), I)?;
        self.cells[index].value.ok_or(SLOT_EMPTY)
    }

    fn location(&self, thread: &Thread, s: u8) -> Result<u32, u8> {
        let Value::Location(location) = self.slot(thread, s)? else {
            return Err(WRONG_VALUE_KIND);
        };
        Ok(u32::from(location))
    }

    fn integer(&self, thread: &Thread, s: u8) -> Result<i64, u8> {
        let Value::Integer(integer) = self.slot(thread, s)? else {
            return Err(WRONG_VALUE_KIND);
        };
        Ok(integer)
    }

    fn boolean(&self, thread: &Thread, s: u8) -> Result<bool, u8> {
        let Value::Boolean(boolean) = self.slot(thread, s)? else {
            return Err(WRONG_VALUE_KIND);
        };
        Ok(boolean)
    }

    /// "The cell must be an I-cell. Full or not, the accumulator becomes nil. Empty: the thread waits with the next instruction to run."
    fn touch(&self, thread: &mut Thread, s: u8) -> Result<Outcome, u8> {
        let on = self.cell(slot_place(thread, s), I)?;
        thread.accumulator = Value::Nil;
        Ok(if self.cells[on].value.is_some() {
            RanOn
        } else {
            Waits { on }
        })
    }

    /// "Full gives its value to the accumulator; MFETCH ... then empties it. Empty: the thread waits, accumulator nil, at this same
    /// instruction."
    fn fetch(
        &mut self,
        thread: &mut Thread,
        here: u16,
        kind: CellKind,
        s: u8,
        k: u8,
    ) -> Result<Outcome, u8> {
        let on = self.cell(self.location(thread, s)? + u32::from(k), kind)?;
        let Some(value) = self.cells[on].value else {
            thread.accumulator = Value::Nil;
            thread.position = here;
            return Ok(Waits { on });
        };
        thread.accumulator = value;
        if kind == M {
            self.cells[on].value = None;
        }
        Ok(RanOn)
    }

    /// Stores "need an empty cell. They fill it and append all its waiters to the ready order, newest first".
    fn fill(&mut self, place: u32, kind: CellKind, value: Value) -> Result<(), u8> {
        let index = self.cell(place, kind)?;
        let cell = &mut self.cells[index];
        if cell.value.is_some() {
            return Err(CELL_FULL);
        }
        cell.value = Some(value);
        for waiter in std::mem::take(&mut cell.waiters) {
            self.join_ready(waiter);
        }
        Ok(())
    }

    /// "Size in slot, 1 to 1,024."
    fn allocate(&mut self, thread: &Thread, kind: CellKind, s: u8) -> Result<Value, u8> {
        let size = self.integer(thread, s)?;
        if !(1..=1024).contains(&size) {
            return Err(BAD_SIZE);
        }
        self.make_cells(kind, size as u32)
    }

    /// "Make that many empty cells at the used count ... They fail for room exactly if used + size exceeds the share."
    fn make_cells(&mut self, kind: CellKind, size: u32) -> Result<Value, u8> {
        let used = self.cells.len() as u32;
        if used + size > self.region.cells {
            return Err(NO_CELLS_LEFT);
        }
        self.cells.resize((used + size) as usize, Cell::empty(kind));
        Ok(Value::Location((self.region.start + used) as u16))
    }

    /// "Refused for room exactly if live threads equal the share."
    fn spawn(&mut self, position: u16, frame: u16) -> Result<(), u8> {
        if self.live() == self.region.threads as usize {
            return Err(NO_THREADS_LEFT);
        }
        self.start_thread(position, frame);
        Ok(())
    }

    /// "Slot s any number, slot t the kind that s has."
    fn compute(&self, thread: &Thread, operation: Operation, s: u8, t: u8) -> Result<Value, u8> {
        let first = self.slot(thread, s)?;
        if !operation.takes(first) {
            return Err(WRONG_VALUE_KIND);
        }
        let second = self.slot(thread, t)?;
        if std::mem::discriminant(&first) != std::mem::discriminant(&second) {
            return Err(WRONG_VALUE_KIND);
        }
        operation.answer(first, second).ok_or(ARITHMETIC)
    }

    /// "Location plus integer; refused with 1 outside 0 to 65,535."
    fn offset(&self, thread: &Thread, s: u8, t: u8) -> Result<Value, u8> {
        let sum = i128::from(self.location(thread, s)?) + i128::from(self.integer(thread, t)?);
        u16::try_from(sum)
            .map(Value::Location)
            .map_err(|_| NO_SUCH_CELL)
    }
}

/// "Slot s is the cell at frame + s": a plain sum, which may lie beyond every location.
fn slot_place(thread: &Thread, s: u8) -> u32 {
    u32::from(thread.frame) + u32::from(s)
}
