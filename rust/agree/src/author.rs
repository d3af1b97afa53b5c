//! The author of a sheet: writes instructions, and keeps in mind what each slot of the present frame holds.
use crate::chance::Chance;
use crate::values;
use crate::writer::{Label, Writer};
use model::value::Value;

/// What the author believes a slot to hold.
#[derive(Clone, Copy, PartialEq)]
pub enum Holds {
    Nothing,
    Integer,
    /// An integer that is a good size, mostly.
    Size,
    Float,
    Boolean,
    Nil,
    ICells,
    MCells,
    /// What another thread stores there, if anything.
    Anothers,
}

use Holds::*;

pub const SOMETHING: [Holds; 7] = [Integer, Size, Float, Boolean, Nil, ICells, MCells];

/// The code of a thread that is spawned or applied, still to be written.
pub struct Part {
    pub label: Label,
    pub frame: Vec<Holds>,
    /// Instructions to begin with.
    pub first: Vec<u8>,
}

pub struct Author<'a> {
    pub chance: &'a mut Chance,
    pub writer: Writer,
    pub frame: Vec<Holds>,
    pub parts: Vec<Part>,
    /// Stores that the present thread still owes its waiters.
    pub owed: Vec<Vec<u8>>,
    /// One operand in so many is any slot at all.
    pub care: usize,
}

impl Author<'_> {
    pub fn inputs(&mut self) {
        for slot in 1..self.chance.within(1, self.frame.len()) {
            let holds = self.chance.choose(&SOMETHING[..5]);
            self.frame[slot] = holds;
            let value = self.value(holds);
            self.writer.inputs.push(value);
        }
    }

    pub fn value(&mut self, holds: Holds) -> Value {
        match holds {
            Size => Value::Integer(values::size(self.chance)),
            Integer if self.chance.one_in(2) => Value::Integer(self.chance.below(19) as i64 - 9),
            Integer => Value::Integer(values::integer(self.chance)),
            Float => Value::Float(values::float(self.chance)),
            Boolean => Value::Boolean(self.chance.one_in(2)),
            _ => Value::Nil,
        }
    }

    /// The slots but the first that hold one of these.
    pub fn fits(&self, wanted: &[Holds]) -> Vec<u8> {
        let fits = (1..self.frame.len()).filter(|i| wanted.contains(&self.frame[*i]));
        fits.map(|slot| slot as u8).collect()
    }

    /// A slot that holds one of these, mostly; where none does, one is filled.
    pub fn slot(&mut self, wanted: &[Holds]) -> u8 {
        let fits = self.fits(wanted);
        if self.chance.one_in(self.care) {
            return self.chance.below(self.frame.len() + 3) as u8;
        }
        match fits.is_empty() {
            true => self.provide(wanted[0]),
            false => self.chance.choose(&fits),
        }
    }

    /// Makes a slot hold this.
    pub fn provide(&mut self, holds: Holds) -> u8 {
        match holds {
            Nothing | Anothers => return self.chance.below(self.frame.len()) as u8,
            ICells | MCells => {
                let size = self.slot(&[Size]);
                self.writer
                    .plain(&[if holds == ICells { 0x08 } else { 0x09 }, size]);
            }
            _ => {
                let value = self.value(holds);
                self.writer.constant(value);
            }
        }
        self.keep(holds)
    }

    /// Keeps the accumulator in a slot that holds nothing yet.
    pub fn keep(&mut self, holds: Holds) -> u8 {
        let slot = self.slot(&[Nothing]);
        self.writer.plain(&[0x07, slot]);
        self.holds(slot, holds);
        slot
    }

    /// What a slot is believed to hold.
    pub fn held(&self, slot: u8) -> Holds {
        self.frame
            .get(usize::from(slot))
            .copied()
            .unwrap_or(Anothers)
    }

    pub fn holds(&mut self, slot: u8, holds: Holds) {
        if let Some(place) = self.frame.get_mut(usize::from(slot)) {
            *place = holds;
        }
    }

    /// A part that begins with these bytes, in this frame.
    pub fn part(&mut self, frame: Vec<Holds>, first: &[u8]) -> Label {
        let label = self.writer.label();
        self.parts.push(Part {
            label,
            frame,
            first: first.to_vec(),
        });
        label
    }
}
