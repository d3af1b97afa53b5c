//! What a cell holds.
use std::fmt;

/// A figure of a claim. Floats are finite.
#[derive(Clone, Copy, Debug, PartialEq)]
pub enum Value {
    Integer(i64),
    Float(f64),
    Boolean(bool),
    Nil,
    /// A cell's number.
    Location(u16),
}

impl Value {
    /// The value that a report's kind and word stand for; none where the result's cell is empty.
    pub(crate) fn told(kind: u32, word: u64) -> Option<Value> {
        match kind {
            0 => None,
            1 => Some(Value::Integer(word as i64)),
            2 => Some(Value::Float(f64::from_bits(word))),
            3 => Some(Value::Boolean(word != 0)),
            4 => Some(Value::Nil),
            5 => Some(Value::Location(word as u16)),
            _ => unreachable!("no kind of value has the number {kind}"),
        }
    }
}

/// A float always shows its point, so that 2.0 differs from 2; a location shows as `cell 7`.
impl fmt::Display for Value {
    fn fmt(&self, f: &mut fmt::Formatter) -> fmt::Result {
        match self {
            Value::Integer(z) => write!(f, "{z}"),
            Value::Float(x) => write!(f, "{x:?}"),
            Value::Boolean(b) => write!(f, "{b}"),
            Value::Nil => f.write_str("nil"),
            Value::Location(l) => write!(f, "cell {l}"),
        }
    }
}
