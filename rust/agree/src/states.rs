//! Shares, and sound states made at random, with cells and threads that no run need have led to.
use crate::chance::Chance;
use crate::images;
use crate::sheets;
use crate::values::{self, Sort};
use model::claim::{Cell, Claim, Refusal, Region, Thread};
use model::instruction::CellKind;
use model::sheet::Sheet;
use model::value::Value;
use model::Machine;

/// Good shares for so many seats.
pub fn shares(chance: &mut Chance, seats: usize) -> Vec<u32> {
    let mut left = 2048;
    let mut shares = Vec::new();
    for behind in (0..seats as u32).rev() {
        let most = 1024.min(left - behind);
        let cells = match chance.below(8) {
            0 => 1,
            1 => most,
            2 => chance.within(1, most as usize) as u32,
            _ => most.min(chance.within(8, 160) as u32),
        };
        left -= cells;
        shares.extend([cells, chance.up_to(&[2, 8, 16, 32]) as u32]);
    }
    shares
}

/// A machine in any sound state.
pub fn machine(chance: &mut Chance) -> Machine {
    let seats = chance.up_to(&[2, 4, 8]);
    let mut machine = Machine::open(&shares(chance, seats)).expect("the shares are good");
    for seat in &mut machine.seats {
        if !chance.one_in(5) {
            seat.claim = Some(claim(chance, seat.region));
        }
    }
    machine
}

fn claim(chance: &mut Chance, region: Region) -> Claim {
    let image = match chance.one_in(3) {
        true => sheets::program(chance, region.cells),
        false => images::random_code(chance, region.cells, 30),
    };
    let Ok(sheet) = Sheet::read(&image) else {
        panic!("a generator of good images gave {image:02x?}")
    };
    let mut claim = Claim::load(region, &image, sheet);
    fill_cells(chance, &mut claim);
    seat_threads(chance, &mut claim);
    claim.steps = match chance.below(12) {
        0 => u32::MAX - chance.below(4) as u32,
        1 => chance.word() as u32,
        _ => chance.below(100) as u32,
    };
    if chance.one_in(10) && !claim.ready.is_empty() {
        claim.refusal = Some(Refusal {
            number: chance.within(1, 9) as u8,
            pick: chance.below(claim.ready.len()),
        });
    }
    claim
}

/// Lets refused claims go on, the refused thread at another instruction.
pub fn revive(chance: &mut Chance, machine: &mut Machine) {
    let seats = machine.seats.iter_mut();
    for claim in seats.filter_map(|seat| seat.claim.as_mut()) {
        if let Some(refusal) = claim.refusal.take() {
            let positions: Vec<u16> = claim.sheet.code.keys().copied().collect();
            claim.ready[refusal.pick].position = chance.choose(&positions);
        }
    }
}

fn fill_cells(chance: &mut Chance, claim: &mut Claim) {
    let (slots, share) = (claim.cells.len(), claim.region.cells as usize);
    let used = if chance.one_in(6) {
        share
    } else {
        chance.within(slots, share.min(slots + 24))
    };
    let kind = |i: usize| match i % 8 {
        7 => CellKind::M,
        3 if i > 8 => CellKind::M,
        _ => CellKind::I,
    };
    let kinds: Vec<CellKind> = (0..used).map(kind).collect();
    claim.cells = (0..used)
        .map(|i| Cell {
            value: held(chance, claim.region, &kinds, i),
            ..Cell::empty(kinds[i])
        })
        .collect();
}

/// What cell i holds: mostly what random code expects of the slot with that number.
fn held(chance: &mut Chance, region: Region, kinds: &[CellKind], i: usize) -> Option<Value> {
    match values::sort(i) {
        _ if chance.one_in(8) => (!chance.one_in(3)).then(|| value(chance, region, kinds.len())),
        Sort::Empty => None,
        Sort::ICell => Some(pointer(chance, region, kinds, CellKind::I)),
        Sort::MCell => Some(pointer(chance, region, kinds, CellKind::M)),
        _ if (kinds[i] == CellKind::M || i >= 16) && chance.one_in(2) => None,
        _ => values::in_slot(chance, i),
    }
}

/// The location of a cell, mostly of this kind.
fn pointer(chance: &mut Chance, region: Region, kinds: &[CellKind], kind: CellKind) -> Value {
    let mut fits: Vec<usize> = (0..kinds.len()).collect();
    fits.retain(|i| kinds[*i] == kind);
    Value::Location(match fits.is_empty() || chance.one_in(5) {
        true => values::location(chance, region, kinds.len()),
        false => region.start as u16 + chance.choose(&fits) as u16,
    })
}

/// Any value, with many locations and sizes.
fn value(chance: &mut Chance, region: Region, used: usize) -> Value {
    match chance.below(4) {
        0 => values::input(chance),
        1 => Value::Integer(chance.below(6) as i64),
        _ => Value::Location(values::location(chance, region, used)),
    }
}

fn seat_threads(chance: &mut Chance, claim: &mut Claim) {
    let used = claim.cells.len();
    let empty: Vec<usize> = (0..used)
        .filter(|i| claim.cells[*i].value.is_none())
        .collect();
    let positions: Vec<u16> = claim.sheet.code.keys().copied().collect();
    claim.ready.clear();
    let least = if chance.one_in(8) { 0 } else { 1 };
    for _ in 0..chance.within(least, claim.region.threads as usize) {
        let frame = match chance.one_in(5) {
            true => values::location(chance, claim.region, used),
            false => claim.region.start as u16 + 8 * chance.below(2) as u16,
        };
        let accumulator = value(chance, claim.region, used);
        let thread = Thread {
            position: chance.choose(&positions),
            frame,
            accumulator,
            joined: 0,
        };
        if empty.is_empty() || !chance.one_in(3) {
            claim.join_ready(thread);
        } else {
            claim.join_waiters(chance.choose(&empty), thread);
        }
    }
}
