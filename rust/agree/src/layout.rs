//! A model machine written to the six buffers, as docs/STATE.md says, and read back.
use crate::buffers::{Buffers, MINIMA};
use model::claim::{Cell, Claim, Refusal, Thread};
use model::instruction::CellKind;
use model::sheet::Sheet;
use model::value::Value;
use model::{Machine, Seat};

/// Writes the minimum of each buffer and leaves what is behind it.
pub fn write(machine: &Machine, buffers: &mut Buffers) {
    buffers.book[..MINIMA[0]].fill(0);
    buffers.tags[..MINIMA[1]].fill(0);
    buffers.words[..MINIMA[2]].fill(0);
    buffers.heads[..MINIMA[3]].fill(0);
    buffers.accs[..MINIMA[4]].fill(0);
    buffers.images[..MINIMA[5]].fill(0);
    for (number, seat) in machine.seats.iter().enumerate() {
        buffers.book[9 * number] = seat.region.cells;
        buffers.book[9 * number + 1] = seat.region.threads;
        if let Some(claim) = &seat.claim {
            write_claim(number, claim, buffers);
        }
    }
}

fn write_claim(number: usize, claim: &Claim, buffers: &mut Buffers) {
    for (i, cell) in claim.cells.iter().enumerate() {
        let (tag, word) = cell.value.map_or((0, 0), coded);
        let place = claim.region.start as usize + i;
        buffers.tags[place] = tag | if cell.kind == CellKind::M { 8 } else { 0 };
        buffers.words[place] = word;
    }
    let row = row(claim);
    for (i, (place, thread)) in row.iter().enumerate() {
        let (tag, word) = coded(thread.accumulator);
        let parts = [*place, thread.position, thread.frame, tag];
        buffers.heads[32 * number + i] = parts
            .iter()
            .rev()
            .fold(0, |head, part| head << 16 | u64::from(*part));
        buffers.accs[32 * number + i] = word;
    }
    buffers.images[4096 * number..][..claim.image.len()].copy_from_slice(&claim.image);
    let refused = claim
        .refusal
        .map(|refusal| (refusal.number, claim.ready[refusal.pick].joined));
    let book = &mut buffers.book[9 * number..][..9];
    book[2] = claim.image.len() as u32;
    book[3] = claim.sheet.code_start as u32;
    book[4] = claim.cells.len() as u32;
    book[5] = row.len() as u32;
    if let Some((refusal, joined)) = refused {
        book[6] = u32::from(refusal);
        book[7] = row
            .iter()
            .take_while(|(_, thread)| thread.joined != joined)
            .count() as u32;
    }
    book[8] = claim.steps;
}

/// The live threads in the order in which each joined its present list, each with its place: 1 ready, l + 2 waiting on location l.
fn row(claim: &Claim) -> Vec<(u16, &Thread)> {
    let waiting = claim.cells.iter().enumerate().flat_map(|(i, cell)| {
        let place = claim.region.start as u16 + i as u16 + 2;
        cell.waiters.iter().map(move |thread| (place, thread))
    });
    let mut row: Vec<_> = claim
        .ready
        .iter()
        .map(|thread| (1, thread))
        .chain(waiting)
        .collect();
    row.sort_by_key(|(_, thread)| thread.joined);
    row
}

/// A value's tag and word.
pub fn coded(value: Value) -> (u16, u64) {
    match value {
        Value::Integer(integer) => (1, integer as u64),
        Value::Float(float) => (2, float.to_bits()),
        Value::Boolean(boolean) => (3, u64::from(boolean)),
        Value::Nil => (4, 0),
        Value::Location(location) => (5, u64::from(location)),
    }
}

/// The value that a tag and a word have, where they have one.
pub fn decoded(tag: u64, word: u64) -> Option<Value> {
    match (tag, word) {
        (1, _) => Some(Value::Integer(word as i64)),
        (2, _) => {
            Some(Value::Float(f64::from_bits(word))).filter(|_| f64::from_bits(word).is_finite())
        }
        (3, 0 | 1) => Some(Value::Boolean(word == 1)),
        (4, 0) => Some(Value::Nil),
        (5, 0..=65_535) => Some(Value::Location(word as u16)),
        _ => None,
    }
}

/// The machine that a sound state holds.
pub fn read(buffers: &Buffers) -> Machine {
    let shares: Vec<u32> = buffers.book[..72]
        .chunks(9)
        .take_while(|book| book[0] != 0)
        .flat_map(|book| [book[0], book[1]])
        .collect();
    let mut machine = Machine::open(&shares).expect("a sound state has good shares");
    for (number, seat) in machine.seats.iter_mut().enumerate() {
        if buffers.book[9 * number + 2] != 0 {
            seat.claim = Some(read_claim(number, seat, buffers));
        }
    }
    machine
}

fn read_claim(number: usize, seat: &Seat, buffers: &Buffers) -> Claim {
    let book = &buffers.book[9 * number..][..9];
    let image = &buffers.images[4096 * number..][..book[2] as usize];
    let sheet = Sheet::read(image).expect("a sound state has good images");
    let mut claim = Claim::load(seat.region, image, sheet);
    let start = seat.region.start as usize;
    claim.ready.clear();
    claim.steps = book[8];
    claim.cells = (start..start + book[4] as usize)
        .map(|i| read_cell(buffers.tags[i], buffers.words[i]))
        .collect();
    for i in 0..book[5] as usize {
        if book[6] != 0 && book[7] as usize == i {
            claim.refusal = Some(Refusal {
                number: book[6] as u8,
                pick: claim.ready.len(),
            });
        }
        let (head, word) = (
            buffers.heads[32 * number + i],
            buffers.accs[32 * number + i],
        );
        let accumulator = decoded(head >> 48, word).expect("a sound state has good accumulators");
        let thread = Thread {
            position: (head >> 16) as u16,
            frame: (head >> 32) as u16,
            accumulator,
            joined: 0,
        };
        match head as u16 {
            1 => claim.join_ready(thread),
            place => claim.join_waiters(usize::from(place) - 2 - start, thread),
        }
    }
    claim
}

fn read_cell(tag: u16, word: u64) -> Cell {
    let kind = if tag & 8 == 0 {
        CellKind::I
    } else {
        CellKind::M
    };
    Cell {
        value: decoded(u64::from(tag & 7), word),
        ..Cell::empty(kind)
    }
}
