//! Values, and the arithmetic on them.

#[derive(Clone, Copy, Debug, PartialEq)]
pub enum Value {
    Integer(i64),
    Float(f64),
    Boolean(bool),
    Nil,
    Location(u16),
}

#[derive(Clone, Copy, Debug, PartialEq, Eq)]
pub enum Operation {
    Add,
    Sub,
    Mul,
    Div,
    Less,
    Equal,
}

use Operation::*;
use Value::*;

impl Operation {
    /// "Slot s any number"; "EQUAL also takes two booleans, never nil or locations".
    pub fn takes(self, first: Value) -> bool {
        match first {
            Integer(_) | Float(_) => true,
            Boolean(_) => self == Equal,
            Nil | Location(_) => false,
        }
    }

    /// The answer on two values of one kind that the operation takes; none where it is refused with 9.
    pub fn answer(self, first: Value, second: Value) -> Option<Value> {
        match (first, second) {
            (Integer(a), Integer(b)) => self.on_integers(a, b),
            (Float(a), Float(b)) => self.on_floats(a, b),
            (Boolean(a), Boolean(b)) => Some(Boolean(a == b)),
            _ => unreachable!("the slots were tested"),
        }
    }

    /// "Integer answers are exact, DIV truncates toward zero; an answer out of range or a zero divisor is refused."
    fn on_integers(self, a: i64, b: i64) -> Option<Value> {
        let (a, b) = (i128::from(a), i128::from(b));
        let exact = match self {
            Add => a + b,
            Sub => a - b,
            Mul => a * b,
            Div if b == 0 => return None,
            Div => a / b,
            Less => return Some(Boolean(a < b)),
            Equal => return Some(Boolean(a == b)),
        };
        i64::try_from(exact).ok().map(Integer)
    }

    /// "Float answers are one operation of the language; a zero divisor or an answer not finite is refused."
    fn on_floats(self, a: f64, b: f64) -> Option<Value> {
        let answer = match self {
            Add => a + b,
            Sub => a - b,
            Mul => a * b,
            Div if b == 0.0 => return None,
            Div => a / b,
            Less => return Some(Boolean(a < b)),
            Equal => return Some(Boolean(a == b)),
        };
        answer.is_finite().then_some(Float(answer))
    }
}
