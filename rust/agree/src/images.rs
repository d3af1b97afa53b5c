//! Images of every sort: programs, random code, damaged ones, and ones that break a chosen rule.
use crate::chance::Chance;
use crate::sheets;
use crate::values::{self, Sort};
use crate::writer::Writer;
use model::value::Value;

/// An image for a seat with so many cells: mostly a good one.
pub fn any(chance: &mut Chance, cells: u32) -> Vec<u8> {
    match chance.below(10) {
        0..=5 => sheets::program(chance, cells),
        6..=8 => random_code(chance, cells, 40),
        _ => damaged(chance, cells),
    }
}

/// Random instructions, at most so many of them, mostly with operands that `values::in_slot` suits.
pub fn random_code(chance: &mut Chance, cells: u32, most: usize) -> Vec<u8> {
    let slots = chance.up_to(&[cells.min(8) as usize, cells.min(255) as usize]);
    let mut writer = Writer::new(slots as u8);
    for slot in 1..chance.within(1, slots) {
        let input = values::in_slot(chance, slot).unwrap_or_else(|| values::input(chance));
        writer.inputs.push(input);
    }
    let count = chance.within(1, most);
    let labels: Vec<_> = (0..count).map(|_| writer.label()).collect();
    for (i, label) in labels.iter().enumerate() {
        writer.place(*label);
        let last = i + 1 == count;
        let kind = if last {
            chance.choose(&[0x00, 0x17])
        } else {
            chance.within(0x00, 0x1B) as u8
        };
        let (s, t) = operands(chance, kind, slots);
        match kind {
            0x01..=0x03 => writer.constant(values::input(chance)),
            0x00 | 0x04 | 0x0F => writer.plain(&[kind]),
            0x05..=0x0A | 0x0C => writer.plain(&[kind, s]),
            0x0E => writer.plain(&[kind, chance.up_to(&[4, 255]) as u8]),
            0x17 => writer.switch(s, chance.choose(&labels), chance.choose(&labels)),
            0x18 => writer.spawn(chance.choose(&labels)),
            0x19 => writer.apply(chance.choose(&labels), s),
            _ => writer.plain(&[kind, s, t]),
        }
    }
    writer.image()
}

/// SELF, LOAD 1 and SWITCH 1 back to the start, for ever.
pub const ENDLESS: [u8; 14] = [0x80, 2, 0x83, 1, 0x85, 0x0F, 0x06, 1, 0x17, 1, 0, 0, 0, 0];

/// One operation on two inputs, mostly of one kind; its answer is the result.
pub fn of_operation(chance: &mut Chance, kind: u8) -> Vec<u8> {
    let mut writer = Writer::new(3);
    for _ in 0..2 {
        writer.inputs.push(values::input(chance));
    }
    if !chance.one_in(8) {
        let floats = chance.one_in(2);
        let number = |chance: &mut Chance| match floats {
            true => Value::Float(values::float(chance)),
            false => Value::Integer(values::integer(chance)),
        };
        writer.inputs = vec![number(chance), number(chance)];
    }
    if chance.one_in(8) {
        writer.inputs[1] = writer.inputs[0];
    }
    writer.plain(&[kind, 1, 2, 0x07, 0, 0x00]);
    writer.image()
}

/// OFFSET from the own frame by one input, then by the other, about the ends of the locations.
pub fn of_offsets(chance: &mut Chance) -> Vec<u8> {
    let mut writer = Writer::new(4);
    for _ in 0..2 {
        let end = chance.choose(&[0, 0, 65_535, 65_535, -65_535, i64::MAX, i64::MIN]);
        let step = end.wrapping_add(chance.below(3) as i64 - 1);
        writer.inputs.push(Value::Integer(step));
    }
    writer.plain(&[0x0F, 0x07, 3, 0x16, 3, 1, 0x07, 0, 0x16, 0, 2, 0x00]);
    writer.image()
}

/// Two slots of a frame with so many, mostly of the sorts that the kind wants.
fn operands(chance: &mut Chance, kind: u8, slots: usize) -> (u8, u8) {
    let (first, second): (&[Sort], &[Sort]) = match kind {
        0x07 => (&[Sort::Empty], &[]),
        0x08 | 0x09 => (&[Sort::Size], &[]),
        0x0A | 0x0B | 0x19 | 0x1A | 0x1B => (&[Sort::ICell], &[]),
        0x0C | 0x0D => (&[Sort::MCell], &[]),
        0x15 if chance.one_in(3) => (&[Sort::Boolean], &[Sort::Boolean]),
        0x10..=0x15 if chance.one_in(2) => (&[Sort::Float], &[Sort::Float]),
        0x10..=0x15 => (&[Sort::Integer, Sort::Size], &[Sort::Integer, Sort::Size]),
        0x16 => (&[Sort::ICell, Sort::MCell], &[Sort::Size, Sort::Integer]),
        0x17 => (&[Sort::Boolean], &[]),
        _ => (&[], &[]),
    };
    let mut slot = |sorts: &[Sort]| {
        let fits: Vec<usize> = (0..slots)
            .filter(|slot| sorts.contains(&values::sort(*slot)))
            .collect();
        match fits.is_empty() || chance.one_in(10) {
            true => chance.below((slots + 3).min(256)) as u8,
            false => chance.choose(&fits) as u8,
        }
    };
    let s = slot(first);
    // GET and PUT have a number there.
    if kind >= 0x1A {
        (s, chance.choose(&[0, 0, 1, 2, 255]))
    } else {
        (s, slot(second))
    }
}

/// A good image with a byte changed, put in or taken out, or cut, or extended; or bytes that make no image.
pub fn damaged(chance: &mut Chance, cells: u32) -> Vec<u8> {
    let mut image = match chance.one_in(2) {
        true => sheets::program(chance, cells),
        false => random_code(chance, cells, 12),
    };
    let at = chance.below(image.len());
    match chance.below(9) {
        0 => image[at] = chance.byte(),
        1 => image[at] = chance.choose(&[0x00, 0x0E, 0x17, 0x1C, 0x7F, 0x80, 0x81, 0x85, 0x86]),
        2 => image[at] ^= 1 << chance.below(8),
        3 => image.truncate(at),
        4 => image.insert(at, chance.byte()),
        5 => drop(image.remove(at)),
        6 => image.extend(chance.bytes(6)),
        7 => return crooked(chance),
        _ => return grown(chance, image),
    }
    image
}

/// An image with code behind END up to a length near the limit, or over it.
fn grown(chance: &mut Chance, mut image: Vec<u8>) -> Vec<u8> {
    let length = chance.choose(&[4094, 4095, 4096, 4097, 5000, 70_000]);
    image.resize(length, chance.choose(&[0x00, 0x04, 0x0F]));
    *image.last_mut().expect("it is long") = 0;
    image
}

/// An image that breaks one rule of the reader, or just keeps it.
fn crooked(chance: &mut Chance) -> Vec<u8> {
    let slots = chance.within(0, 4) as u8;
    let mut image = vec![0x80, slots];
    for _ in 0..chance.below(6) {
        match chance.below(4) {
            0 => image.extend([0x83, chance.below(3) as u8]),
            1 => {
                image.push(0x82);
                let edge = chance.choose(&[f64::INFINITY, f64::NAN, -f64::INFINITY]);
                let bits = edge.to_bits() - chance.below(2) as u64;
                image.extend(bits.to_le_bytes());
            }
            _ => image.push(0x84),
        }
    }
    if !chance.one_in(8) {
        image.push(0x85);
    }
    for _ in 0..chance.below(5) {
        let target = chance.below(16) as u8;
        match chance.below(6) {
            0 => image.extend([0x0E, chance.below(3) as u8]),
            1 => image.extend([0x17, 1, target, 0, 0, 0]),
            2 => image.extend([0x18, target, 0]),
            3 => image.extend([0x19, target, chance.one_in(8).into(), 1]),
            4 => image.extend([0x03, chance.below(3) as u8]),
            _ => image.push(0x00),
        }
    }
    image
}
