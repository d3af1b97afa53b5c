//! Sheets written as small programs: producers and consumers, frames, loops and arithmetic, with a wrong operand now and then.
use crate::author::{Author, Holds, Holds::*, SOMETHING};
use crate::chance::Chance;
use crate::values;
use crate::writer::Writer;
use model::value::Value;

/// A program whose root frame has at most `most` slots.
pub fn program(chance: &mut Chance, most: u32) -> Vec<u8> {
    let slots = chance.within(most.min(6) as usize, most.min(40) as usize);
    let care = chance.choose(&[10, 50, 400]);
    let writer = Writer::new(slots as u8);
    let mut author = Author {
        chance,
        writer,
        frame: vec![Nothing; slots],
        parts: Vec::new(),
        owed: Vec::new(),
        care,
    };
    author.inputs();
    author.body(14);
    let mut written = 0;
    while let Some(part) = author.parts.pop() {
        written += 1;
        author.writer.place(part.label);
        author.writer.plain(&part.first);
        author.frame = part.frame;
        author.body(if written < 10 { 5 } else { 0 });
    }
    author.writer.image()
}

impl Author<'_> {
    /// The code of one thread, at most so many phrases, then what it owes, then END.
    fn body(&mut self, phrases: usize) {
        for _ in 0..self.chance.below(phrases + 1) {
            if self.writer.length() < 3000 {
                self.phrase();
            }
        }
        for store in std::mem::take(&mut self.owed) {
            self.writer.constant(values::input(self.chance));
            self.writer.plain(&store);
        }
        if self.frame[0] == Nothing && self.chance.one_in(2) {
            self.writer.plain(&[0x07, 0]);
        }
        self.writer.plain(&[0x00]);
    }

    fn phrase(&mut self) {
        let slots = self.frame[1..].iter();
        let free = slots.filter(|holds| **holds == Nothing).count();
        match self.chance.below(17) {
            0..=10 if free < 4 => self.look(),
            0 | 1 => self.arithmetic(),
            2 => drop(self.provide(ICells)),
            3 => drop(self.provide(MCells)),
            4 | 5 => self.traffic(),
            6 => self.step_along(),
            7 => self.spawn(),
            8 | 9 => self.call(),
            10 | 11 => self.crowd(),
            12 => self.branch(),
            13 => self.repeat(),
            _ => self.look(),
        }
    }

    fn arithmetic(&mut self) {
        let kind = self.chance.within(0x10, 0x15) as u8;
        let wanted: &[Holds] = match self.chance.below(5) {
            0 | 1 => &[Float],
            2 if kind == 0x15 => &[Boolean],
            _ => &[Integer, Size],
        };
        let (s, t) = (self.slot(wanted), self.slot(wanted));
        self.writer.plain(&[kind, s, t]);
        self.keep(if kind >= 0x14 { Boolean } else { wanted[0] });
    }

    /// A store and a fetch through a location.
    fn traffic(&mut self) {
        let value = self.slot(&SOMETHING);
        if self.chance.one_in(2) {
            let cells = self.slot(&[MCells]);
            self.writer.plain(&[0x0D, cells, value, 0x0C, cells]);
        } else {
            let (cells, k) = (self.slot(&[ICells]), self.chance.below(3) as u8);
            let by_frame = [0x06, value, 0x1B, cells, k, 0x1A, cells, k];
            match self.chance.one_in(2) {
                true => self.writer.plain(&[0x0B, cells, value, 0x0A, cells]),
                false => self.writer.plain(&by_frame),
            }
        }
        self.keep(self.held(value));
    }

    /// OFFSET up or down, now and then past the region.
    fn step_along(&mut self) {
        let holds = self.chance.choose(&[ICells, MCells]);
        let from = self.slot(&[holds]);
        let step = match self.chance.one_in(6) {
            true => values::integer(self.chance),
            false => self.chance.below(4) as i64 - 1,
        };
        self.writer.constant(Value::Integer(step));
        let by = self.keep(Integer);
        self.writer.plain(&[0x16, from, by]);
        self.keep(holds);
    }

    /// A thread on the same frame. The slots that hold nothing are divided.
    fn spawn(&mut self) {
        let mut given = self.frame.clone();
        for slot in 0..given.len() {
            let mine = slot == 0 || self.chance.one_in(2);
            let loser = if mine { &mut given } else { &mut self.frame };
            if loser[slot] == Nothing {
                loser[slot] = Anothers;
            }
        }
        let label = self.part(given, &[]);
        self.writer.spawn(label);
    }

    /// Several threads that wait for one cell, and a store that is owed to them.
    fn crowd(&mut self) {
        let (first, store) = match self.chance.below(5) {
            0 | 1 => {
                let slot = self.slot(&[Nothing]);
                self.holds(slot, Anothers);
                (vec![0x05, slot, 0x06, slot], vec![0x07, slot])
            }
            2 => {
                let (cells, k) = (self.slot(&[ICells]), self.chance.below(2) as u8);
                (vec![0x1A, cells, k], vec![0x1B, cells, k])
            }
            which => {
                let (holds, kind) = [(ICells, 0x0A), (MCells, 0x0C)][which - 3];
                let (cells, value) = (self.slot(&[holds]), self.slot(&SOMETHING));
                (vec![kind, cells], vec![kind + 1, cells, value])
            }
        };
        let mut shared = self.frame.clone();
        for holds in shared.iter_mut().filter(|holds| **holds == Nothing) {
            *holds = Anothers;
        }
        let label = self.part(shared, &first);
        for _ in 0..self.chance.within(1, 4) {
            self.writer.spawn(label);
        }
        self.owed.push(store);
    }

    /// A frame, arguments put into it, and a thread applied to it.
    fn call(&mut self) {
        let size = self.chance.within(1, 8);
        self.writer.plain(&[0x0E, size as u8]);
        let frame = self.keep(ICells);
        let mut held = vec![Nothing; size];
        let arguments = self.chance.below(size);
        for (k, holds) in held.iter_mut().enumerate().skip(1).take(arguments) {
            let value = self.slot(&SOMETHING);
            self.writer.plain(&[0x06, value, 0x1B, frame, k as u8]);
            *holds = self.held(value);
        }
        let label = self.part(held, &[]);
        self.writer.apply(label, frame);
        if self.chance.one_in(3) {
            self.writer.plain(&[0x1A, frame, 0]);
        }
    }

    fn branch(&mut self) {
        let slot = self.slot(&[Boolean]);
        let (yes, no) = (self.writer.label(), self.writer.label());
        self.writer.switch(slot, yes, no);
        self.writer.place(yes);
        self.look();
        self.writer.place(no);
        self.look();
    }

    /// A loop that goes on while a slot is true.
    fn repeat(&mut self) {
        let slot = self.slot(&[Boolean]);
        let (again, on) = (self.writer.label(), self.writer.label());
        self.writer.place(again);
        self.look();
        self.writer.switch(slot, again, on);
        self.writer.place(on);
    }

    /// Instructions that store nothing.
    fn look(&mut self) {
        let fits = self.fits(&SOMETHING);
        let any = if fits.is_empty() {
            0
        } else {
            self.chance.choose(&fits)
        };
        match self.chance.below(5) {
            0 => self.writer.plain(&[0x0F]),
            1 | 2 => self.writer.plain(&[0x05, any]),
            3 if self.frame.contains(&Anothers) => {
                let slot = self.slot(&[Anothers]);
                self.writer.plain(&[0x05, slot]);
            }
            _ => self.writer.plain(&[0x06, any]),
        }
    }
}
