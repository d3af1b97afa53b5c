//! Eight claims on one machine: opened, loaded, given turns one after the other, and reported.
//!
//!     cargo run --example eight
use lapisgable::{Entry, Instruction::*, Machine, Refusal, Report, Share, Sheet, Status, Value};
use Value::{Float, Integer};

/// A worksheet with its name.
struct Claim {
    name: &'static str,
    image: Vec<u8>,
}

fn claim(name: &'static str, image: Vec<u8>) -> Claim {
    Claim { name, image }
}

/// Two damages, summed.
fn two_damages() -> Vec<u8> {
    let damages = Sheet::new(3).input(Integer(850)).input(Integer(1_200));
    damages.code(&[Add(1, 2), Store(0), End])
}

/// What is above the deductible is paid, and nothing below it.
fn deductible() -> Vec<u8> {
    let sheet = Sheet::new(5).input(Integer(1_700)).input(Integer(500));
    sheet.code(&[
        Less(2, 1),
        Store(3),
        Switch(3, 3, 6),
        Sub(1, 2),
        Store(0),
        End,
        Int(0),
        Store(0),
        End,
    ])
}

/// A tenth off a year, until the value is below the floor. Each year has a frame of its own: value, factor, floor,
/// the root frame, the next frame, and whether to go on. The last year's thread hands its value to the root frame.
fn depreciation() -> Vec<u8> {
    let sheet = Sheet::new(7).input(Float(24_000.0)).input(Float(0.9));
    sheet.input(Float(12_000.0)).code(&[
        Own,
        Store(4),
        // A year.
        Less(3, 1),
        Store(6),
        Switch(6, 5, 17),
        Frame(7),
        Store(5),
        Mul(1, 2),
        Put(5, 1),
        Load(2),
        Put(5, 2),
        Load(3),
        Put(5, 3),
        Load(4),
        Put(5, 4),
        Apply(2, 5),
        End,
        // The last one.
        Load(1),
        Put(4, 0),
        End,
    ])
}

/// Two assessors: one waits for the other's estimate and adds the towing.
fn two_assessors() -> Vec<u8> {
    let sheet = Sheet::new(4).input(Integer(180));
    sheet.code(&[
        Spawn(5),
        Touch(2),
        Add(1, 2),
        Store(0),
        End,
        Int(2_400),
        Store(2),
        End,
    ])
}

/// A till: an M-cell that two clerks take from and put back to, one after the other.
fn till() -> Vec<u8> {
    let sheet = Sheet::new(9).input(Integer(1)).input(Integer(5_000));
    sheet.input(Integer(1_300)).code(&[
        Malloc(1),
        Store(4),
        Mstore(4, 2),
        Spawn(10),
        // The first clerk pays 1,300.
        Mfetch(4),
        Store(5),
        Sub(5, 3),
        Store(6),
        Mstore(4, 6),
        End,
        // The second clerk waits for the rest and reports it.
        Touch(6),
        Mfetch(4),
        Store(0),
        End,
    ])
}

/// An estimate that nobody gives.
fn forgotten() -> Vec<u8> {
    Sheet::new(2).code(&[Touch(1), Load(1), Store(0), End])
}

/// A look at the first cell of the seat behind.
fn nosy() -> Vec<u8> {
    let sheet = Sheet::new(4).input(Integer(SHARE.cells as i64));
    sheet.code(&[
        Own,
        Store(2),
        Offset(2, 1),
        Store(3),
        Ifetch(3),
        Store(0),
        End,
    ])
}

/// A table of twelve parts; its third entry is filled and read back.
fn parts_table() -> Vec<u8> {
    let sheet = Sheet::new(4).input(Integer(12));
    sheet.code(&[
        Ialloc(1),
        Store(3),
        Int(75),
        Put(3, 2),
        Get(3, 2),
        Store(0),
        End,
    ])
}

const SHARE: Share = Share {
    cells: 128,
    threads: 4,
};

fn status_of(report: &Report) -> (String, String) {
    match report.status {
        Status::Refused { why, position } => ("refused".into(), format!("{why} at {position}")),
        other => (format!("{other:?}").to_lowercase(), "-".into()),
    }
}

fn show(seat: usize, name: &str, report: &Report) {
    let (status, refusal) = status_of(report);
    let result = report
        .result
        .map_or("none".into(), |value| value.to_string());
    let (cells, threads, steps) = (report.cells, report.threads, report.steps);
    println!("{seat:>4}  {name:<14} {status:<11} {refusal:<18} {cells:>5} {threads:>8} {steps:>6}  {result}");
}

fn main() -> Result<(), Refusal> {
    let claims = [
        claim("two damages", two_damages()),
        claim("deductible", deductible()),
        claim("depreciation", depreciation()),
        claim("two assessors", two_assessors()),
        claim("till", till()),
        claim("forgotten", forgotten()),
        claim("nosy", nosy()),
        claim("parts table", parts_table()),
    ];
    let mut machine = Machine::open(&[SHARE; 8])?;
    for (seat, claim) in claims.iter().enumerate() {
        machine.load(seat as u32, &claim.image)?;
    }
    let round: Vec<Entry> = (0..8).map(|seat| Entry { seat, pick: 0 }).collect();
    while machine
        .reports()
        .any(|report| report.status == Status::Running)
    {
        machine.run(&round)?;
    }
    println!("seat  sheet          status      refusal            cells  threads  steps  result");
    for (seat, report) in machine.reports().enumerate() {
        show(seat, claims[seat].name, &report);
    }
    Ok(())
}
