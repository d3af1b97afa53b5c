//! Instructions and their bytes.
use crate::value::{Operation, Value};

#[derive(Clone, Copy, Debug, PartialEq, Eq)]
pub enum CellKind {
    I,
    M,
}

/// One instruction; s and t are slots, in the order of the body.
#[derive(Clone, Copy, Debug, PartialEq)]
pub enum Instruction {
    End,
    /// INT, FLOAT, BOOL and NIL.
    Constant(Value),
    Touch(u8),
    Load(u8),
    Store(u8),
    /// IALLOC and MALLOC.
    Alloc(CellKind, u8),
    /// IFETCH and MFETCH.
    Fetch(CellKind, u8),
    /// ISTORE and MSTORE.
    StoreAt(CellKind, u8, u8),
    Frame(u8),
    OwnFrame,
    Compute(Operation, u8, u8),
    Offset(u8, u8),
    Switch(u8, u16, u16),
    Spawn(u16),
    Apply(u16, u8),
    Get(u8, u8),
    Put(u8, u8),
}

use CellKind::{I, M};
use Instruction::*;

impl Instruction {
    /// The instruction at the front of these bytes and its length; none where it is unknown, cut short or breaks a rule.
    pub fn read(bytes: &[u8]) -> Option<(Instruction, usize)> {
        let (&kind, body) = bytes.split_first()?;
        let byte = |i: usize| body.get(i).copied();
        let two = |i: usize| Some(u16::from_le_bytes([byte(i)?, byte(i + 1)?]));
        let (instruction, length) = match kind {
            0x00 => (End, 0),
            0x01..=0x04 => {
                let (value, length) = read_value(kind, body)?;
                (Constant(value), length)
            }
            0x05 => (Touch(byte(0)?), 1),
            0x06 => (Load(byte(0)?), 1),
            0x07 => (Store(byte(0)?), 1),
            0x08 => (Alloc(I, byte(0)?), 1),
            0x09 => (Alloc(M, byte(0)?), 1),
            0x0A => (Fetch(I, byte(0)?), 1),
            0x0B => (StoreAt(I, byte(0)?, byte(1)?), 2),
            0x0C => (Fetch(M, byte(0)?), 1),
            0x0D => (StoreAt(M, byte(0)?, byte(1)?), 2),
            0x0E => (Frame(byte(0).filter(|n| *n >= 1)?), 1),
            0x0F => (OwnFrame, 0),
            0x10..=0x15 => (Compute(operation(kind), byte(0)?, byte(1)?), 2),
            0x16 => (Offset(byte(0)?, byte(1)?), 2),
            0x17 => (Switch(byte(0)?, two(1)?, two(3)?), 5),
            0x18 => (Spawn(two(0)?), 2),
            0x19 => (Apply(two(0)?, byte(2)?), 3),
            0x1A => (Get(byte(0)?, byte(1)?), 2),
            0x1B => (Put(byte(0)?, byte(1)?), 2),
            _ => return None,
        };
        Some((instruction, 1 + length))
    }

    /// Every a and b of the instruction.
    pub fn targets(self) -> Vec<u16> {
        match self {
            Switch(_, a, b) => vec![a, b],
            Spawn(a) | Apply(a, _) => vec![a],
            _ => vec![],
        }
    }
}

/// The value in the body of an input or a constant, by the last three bits that 81 to 84 share with 01 to 04.
pub fn read_value(kind: u8, body: &[u8]) -> Option<(Value, usize)> {
    let eight = || body.get(..8)?.try_into().ok();
    match kind & 7 {
        1 => Some((Value::Integer(i64::from_le_bytes(eight()?)), 8)),
        2 => Some((Value::Float(f64::from_le_bytes(eight()?)), 8))
            .filter(|(float, _)| is_finite(*float)),
        3 => match body.first()? {
            0 => Some((Value::Boolean(false), 1)),
            1 => Some((Value::Boolean(true), 1)),
            _ => None,
        },
        4 => Some((Value::Nil, 0)),
        _ => None,
    }
}

fn is_finite(value: Value) -> bool {
    matches!(value, Value::Float(float) if float.is_finite())
}

fn operation(kind: u8) -> Operation {
    use Operation::*;
    [Add, Sub, Mul, Div, Less, Equal][usize::from(kind - 0x10)]
}
