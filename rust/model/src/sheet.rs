//! The image reader: a row of records, "one byte of kind, then a body whose length the kind fixes".
use crate::instruction::{read_value, Instruction};
use crate::value::Value;
use std::collections::BTreeMap;

/// A sheet as its image says.
#[derive(Clone, Debug, PartialEq)]
pub struct Sheet {
    /// r, the slots of the root frame.
    pub slots: u8,
    /// For slots 1, 2, ...
    pub inputs: Vec<Value>,
    /// Offset in the image of the code's own start.
    pub code_start: usize,
    pub code: BTreeMap<u16, Line>,
}

/// An instruction, and the position behind it.
#[derive(Clone, Copy, Debug, PartialEq)]
pub struct Line {
    pub instruction: Instruction,
    pub next: u16,
}

impl Sheet {
    /// Reads an image of at most 4,096 bytes. A bad one gives its place, an offset in the image.
    pub fn read(image: &[u8]) -> Result<Sheet, usize> {
        let slots = match image {
            [0x80, slots @ 1..=255, ..] => *slots,
            _ => return Err(0),
        };
        let (inputs, code_start) = read_inputs(image, slots)?;
        let code = read_code(image, code_start)?;
        test_last(&code, code_start)?;
        test_targets(&code, code_start)?;
        Ok(Sheet {
            slots,
            inputs,
            code_start,
            code,
        })
    }
}

/// "Then inputs for slots 1, 2, ..., at most r-1 of them ... Then 85": the inputs and the offset behind 85.
fn read_inputs(image: &[u8], slots: u8) -> Result<(Vec<Value>, usize), usize> {
    let mut inputs = Vec::new();
    let mut offset = 2;
    loop {
        // "The image's length where it ends before 85."
        let kind = *image.get(offset).ok_or(image.len())?;
        if kind == 0x85 {
            return Ok((inputs, offset + 1));
        }
        if !(0x81..=0x84).contains(&kind) || inputs.len() + 1 == usize::from(slots) {
            return Err(offset);
        }
        let (value, length) = read_value(kind, &image[offset + 1..]).ok_or(offset)?;
        inputs.push(value);
        offset += 1 + length;
    }
}

/// "All after it is code, whose positions count from its own start."
fn read_code(image: &[u8], start: usize) -> Result<BTreeMap<u16, Line>, usize> {
    let mut code = BTreeMap::new();
    let mut offset = start;
    while offset < image.len() {
        let (instruction, length) = Instruction::read(&image[offset..]).ok_or(offset)?;
        let next = (offset + length - start) as u16;
        code.insert((offset - start) as u16, Line { instruction, next });
        offset += length;
    }
    // "Or with no code."
    if code.is_empty() {
        return Err(image.len());
    }
    Ok(code)
}

/// "Else the last instruction's offset if it is of the wrong kind": it "is END or SWITCH".
fn test_last(code: &BTreeMap<u16, Line>, start: usize) -> Result<(), usize> {
    match code.last_key_value() {
        Some((_, line))
            if matches!(line.instruction, Instruction::End | Instruction::Switch(..)) =>
        {
            Ok(())
        }
        Some((position, _)) => Err(start + usize::from(*position)),
        None => Err(start),
    }
}

/// "Else the first instruction with a bad target": "every a and b is the start of an instruction".
fn test_targets(code: &BTreeMap<u16, Line>, start: usize) -> Result<(), usize> {
    let astray = |line: &Line| {
        line.instruction
            .targets()
            .iter()
            .any(|target| !code.contains_key(target))
    };
    match code.iter().find(|(_, line)| astray(line)) {
        Some((position, _)) => Err(start + usize::from(*position)),
        None => Ok(()),
    }
}
