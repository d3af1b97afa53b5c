//! Values that try the edges.
use crate::chance::Chance;
use model::claim::Region;
use model::value::Value;

const INTEGERS: [i64; 16] = [
    0,
    1,
    -1,
    2,
    -2,
    7,
    -7,
    1024,
    1025,
    65_535,
    65_536,
    3_037_000_500,
    -3_037_000_500,
    4_294_967_296,
    i64::MAX,
    i64::MIN,
];

const FLOATS: [f64; 14] = [
    0.0,
    -0.0,
    1.0,
    -1.0,
    0.5,
    0.1,
    1e308,
    -1e308,
    f64::MAX,
    f64::MIN,
    f64::MIN_POSITIVE,
    5e-324,
    1e-200,
    3.0,
];

pub fn integer(chance: &mut Chance) -> i64 {
    match chance.below(6) {
        0 => chance.word() as i64,
        1 | 2 => chance
            .choose(&[i64::MAX, i64::MIN])
            .wrapping_add(chance.below(7) as i64 - 3),
        3 => (chance.word() as i64) >> chance.below(64),
        _ => chance.choose(&INTEGERS),
    }
}

/// A size for an allocation: mostly a small one.
pub fn size(chance: &mut Chance) -> i64 {
    match chance.one_in(16) {
        true => chance.choose(&[i64::MIN, -1, 0, 1023, 1024, 1025, 1 << 32]),
        false => chance.within(1, 4) as i64,
    }
}

pub fn float(chance: &mut Chance) -> f64 {
    let any = f64::from_bits(chance.word());
    match chance.below(6) {
        0 | 1 if any.is_finite() => any,
        2 => chance.choose(&[0.0, -0.0]),
        _ => chance.choose(&FLOATS),
    }
}

/// Any value but a location.
pub fn input(chance: &mut Chance) -> Value {
    match chance.below(6) {
        0 | 1 => Value::Integer(integer(chance)),
        2 | 3 => Value::Float(float(chance)),
        4 => Value::Boolean(chance.one_in(2)),
        _ => Value::Nil,
    }
}

/// What random code expects of a slot, by its number.
#[derive(Clone, Copy, PartialEq)]
pub enum Sort {
    Empty,
    Integer,
    Size,
    Float,
    Boolean,
    ICell,
    MCell,
    Any,
}

pub fn sort(slot: usize) -> Sort {
    use Sort::*;
    [Empty, Integer, Size, Float, Boolean, ICell, MCell, Any][slot % 8]
}

/// A value of the sort that a slot's number gives; none where it should be empty or a location.
pub fn in_slot(chance: &mut Chance, slot: usize) -> Option<Value> {
    match sort(slot) {
        Sort::Integer => Some(Value::Integer(integer(chance))),
        Sort::Size => Some(Value::Integer(size(chance))),
        Sort::Float => Some(Value::Float(float(chance))),
        Sort::Boolean => Some(Value::Boolean(chance.one_in(2))),
        Sort::Any => Some(input(chance)),
        Sort::Empty | Sort::ICell | Sort::MCell => None,
    }
}

/// A location, mostly among the first cells of a region.
pub fn location(chance: &mut Chance, region: Region, used: usize) -> u16 {
    match chance.below(10) {
        0 => chance.word() as u16,
        1 => chance.choose(&[0, 2047, 2048, 65_280, 65_534, 65_535]),
        2 => (region.start as usize + used).wrapping_sub(1 + chance.below(3)) as u16,
        3 => (region.start as usize + used + chance.below(3)) as u16,
        4 => region.start.wrapping_sub(1) as u16,
        _ => (region.start as usize + chance.below(used.max(1))) as u16,
    }
}
