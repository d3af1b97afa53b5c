//! Worksheets as images: slots, inputs and code, laid out as bytes.
use crate::Value;

/// One instruction, under the scope document's names. `s` and `t` are slots. Where the document has a position in
/// the code, a builder has the number of an instruction, counted from 0.
#[derive(Clone, Copy, Debug, PartialEq)]
pub enum Instruction {
    End,
    Int(i64),
    Float(f64),
    Bool(bool),
    Nil,
    Touch(u8),
    Load(u8),
    Store(u8),
    Ialloc(u8),
    Malloc(u8),
    Ifetch(u8),
    Istore(u8, u8),
    Mfetch(u8),
    Mstore(u8, u8),
    Frame(u8),
    /// SELF: the own frame's location.
    Own,
    Add(u8, u8),
    Sub(u8, u8),
    Mul(u8, u8),
    Div(u8, u8),
    Less(u8, u8),
    Equal(u8, u8),
    Offset(u8, u8),
    /// The slot, then where true goes and where false goes.
    Switch(u8, usize, usize),
    Spawn(usize),
    /// Where the new thread starts, then the slot with its frame.
    Apply(usize, u8),
    Get(u8, u8),
    Put(u8, u8),
}

impl Instruction {
    /// The kind byte and the body, positions being what `at` says of an instruction's number.
    fn bytes(self, at: impl Fn(usize) -> u16) -> Vec<u8> {
        use Instruction::*;
        let pair = |n| at(n).to_le_bytes();
        match self {
            End => vec![0x00],
            Int(z) => [&[0x01], &z.to_le_bytes()[..]].concat(),
            Float(x) => [&[0x02], &x.to_le_bytes()[..]].concat(),
            Bool(b) => vec![0x03, b as u8],
            Nil => vec![0x04],
            Touch(s) => vec![0x05, s],
            Load(s) => vec![0x06, s],
            Store(s) => vec![0x07, s],
            Ialloc(s) => vec![0x08, s],
            Malloc(s) => vec![0x09, s],
            Ifetch(s) => vec![0x0A, s],
            Istore(s, t) => vec![0x0B, s, t],
            Mfetch(s) => vec![0x0C, s],
            Mstore(s, t) => vec![0x0D, s, t],
            Frame(n) => vec![0x0E, n],
            Own => vec![0x0F],
            Add(s, t) => vec![0x10, s, t],
            Sub(s, t) => vec![0x11, s, t],
            Mul(s, t) => vec![0x12, s, t],
            Div(s, t) => vec![0x13, s, t],
            Less(s, t) => vec![0x14, s, t],
            Equal(s, t) => vec![0x15, s, t],
            Offset(s, t) => vec![0x16, s, t],
            Switch(s, a, b) => [&[0x17, s], &pair(a)[..], &pair(b)[..]].concat(),
            Spawn(a) => [&[0x18], &pair(a)[..]].concat(),
            Apply(a, s) => [&[0x19], &pair(a)[..], &[s]].concat(),
            Get(s, k) => vec![0x1A, s, k],
            Put(s, k) => vec![0x1B, s, k],
        }
    }
}

/// A worksheet in the making. Nothing is tested here: [`Machine::load`](crate::Machine::load) reads the image anyway.
///
/// ```
/// use lapisgable::{Instruction::*, Sheet, Value};
///
/// let sum = Sheet::new(3).input(Value::Integer(5)).input(Value::Integer(7));
/// let image = sum.code(&[Add(1, 2), Store(0), End]);
/// assert_eq!(image[..3], [0x80, 3, 0x81]);
/// assert_eq!(image[20..], [0x85, 0x10, 1, 2, 0x07, 0, 0x00]);
/// ```
#[derive(Clone, Debug)]
pub struct Sheet {
    image: Vec<u8>,
}

impl Sheet {
    /// A sheet whose root frame has so many slots. Slot 0 is the result's.
    pub fn new(slots: u8) -> Sheet {
        Sheet {
            image: vec![0x80, slots],
        }
    }

    /// Fills the next slot, from slot 1 on.
    ///
    /// # Panics
    /// With a location: no record of an image holds one.
    pub fn input(mut self, value: Value) -> Sheet {
        match value {
            Value::Integer(z) => self.record(0x81, &z.to_le_bytes()),
            Value::Float(x) => self.record(0x82, &x.to_le_bytes()),
            Value::Boolean(b) => self.record(0x83, &[b as u8]),
            Value::Nil => self.record(0x84, &[]),
            Value::Location(l) => panic!("no input is a location: cell {l}"),
        }
        self
    }

    /// The image with this code. A target that is no instruction's number becomes a position that a load refuses.
    pub fn code(mut self, code: &[Instruction]) -> Vec<u8> {
        let mut starts = Vec::with_capacity(code.len());
        let mut end = 0;
        for instruction in code {
            starts.push(end);
            end += instruction.bytes(|_| 0).len();
        }
        let position = |n| u16::try_from(*starts.get(n).unwrap_or(&end)).unwrap_or(u16::MAX);
        self.record(0x85, &[]);
        for instruction in code {
            self.image.extend(instruction.bytes(position));
        }
        self.image
    }

    fn record(&mut self, kind: u8, body: &[u8]) {
        self.image.push(kind);
        self.image.extend(body);
    }
}
