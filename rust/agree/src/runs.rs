//! Random work on a pair: openings good and bad, loads, schedules, clearings, and calls that must be refused.
use crate::buffers::Buffers;
use crate::chance::Chance;
use crate::images;
use crate::pair::{Agreed, Pair};
use crate::states;
use crate::tally::Tally;
use model::claim::{Claim, Status};

/// A machine from its opening on.
pub fn from_open(chance: &mut Chance, tally: &mut Tally) -> Agreed<()> {
    let shares = shares(chance);
    let Some(mut pair) = Pair::open(&shares, Buffers::garbage(chance), tally)? else {
        return Ok(());
    };
    for _ in 0..chance.within(4, 24) {
        act(chance, &mut pair, tally)?;
    }
    Ok(())
}

/// A machine from a random sound state on.
pub fn from_state(chance: &mut Chance, tally: &mut Tally) -> Agreed<()> {
    let machine = states::machine(chance);
    let mut pair = Pair::resume(machine, Buffers::garbage(chance), tally)?;
    for _ in 0..chance.within(1, 8) {
        let schedule = schedule(chance, &pair);
        pair.run(&schedule, schedule.len() / 2 + chance.below(3), tally)?;
        if chance.one_in(2) {
            pair.amend(tally, |machine| states::revive(chance, machine));
        }
    }
    act(chance, &mut pair, tally)
}

/// A seat with one image after another, good and bad.
pub fn of_images(chance: &mut Chance, tally: &mut Tally) -> Agreed<()> {
    let cells = chance.choose(&[1, 3, 30, 1024]);
    let opened = Pair::open(&[cells, 4], Buffers::garbage(chance), tally)?;
    let mut pair = opened.ok_or("good shares are refused")?;
    for _ in 0..20 {
        let good = if chance.one_in(12) { 1024 } else { cells };
        let image = images::damaged(chance, good);
        if pair.load(0, &image, tally)? == 0 {
            let schedule = schedule(chance, &pair);
            pair.run(&schedule, schedule.len() / 2, tally)?;
            pair.clear(0, tally)?;
        }
    }
    Ok(())
}

/// Every operation, and OFFSET, on pairs of numbers at the edges, and on other pairs.
pub fn of_numbers(chance: &mut Chance, tally: &mut Tally) -> Agreed<()> {
    let opened = Pair::open(&[4, 1], Buffers::garbage(chance), tally)?;
    let mut pair = opened.ok_or("good shares are refused")?;
    for kind in [0x10, 0x11, 0x12, 0x13, 0x14, 0x15, 0x16].repeat(4) {
        let image = match kind {
            0x16 => images::of_offsets(chance),
            _ => images::of_operation(chance, kind),
        };
        pair.load(0, &image, tally)?;
        pair.run(&[0; 12], 6, tally)?;
        pair.clear(0, tally)?;
    }
    Ok(())
}

/// A long run, at times of the greatest length, of a sheet that never ends.
fn long_run(chance: &mut Chance, pair: &mut Pair, tally: &mut Tally) -> Agreed<()> {
    let seats = pair.model.seats.len();
    let seat = chance.below(seats);
    pair.clear(seat as u32, tally)?;
    if pair.load(seat as u32, &images::ENDLESS, tally)? != 0 {
        return Ok(());
    }
    let entries = chance.choose(&[300, 300, 2000, 2000, 32_767]);
    let mut schedule = Vec::new();
    for _ in 0..entries {
        schedule.extend(if chance.one_in(20) {
            [chance.below(seats) as u8, chance.below(3) as u8]
        } else {
            [seat as u8, 0]
        });
    }
    pair.run(&schedule, entries, tally)?;
    Ok(())
}

/// Shares that are mostly good.
fn shares(chance: &mut Chance) -> Vec<u32> {
    let seats = chance.up_to(&[2, 4, 8]);
    let mut shares = states::shares(chance, seats);
    let at = 2 * chance.below(seats);
    match chance.below(24) {
        0 => shares.clear(),
        1 => shares = vec![4; chance.choose(&[15, 17, 18, 20, 40])],
        2 => shares.truncate(2 * seats - 1),
        3 => shares[at] = chance.choose(&[0, 1025, u32::MAX]),
        4 => shares[at + 1] = chance.choose(&[0, 33, u32::MAX]),
        5 => shares = vec![1024, 1, 1023, 32, chance.within(1, 2) as u32, 1],
        _ => {}
    }
    shares
}

/// One call, or a step count put near its end.
fn act(chance: &mut Chance, pair: &mut Pair, tally: &mut Tally) -> Agreed<()> {
    let seats = pair.model.seats.len();
    let seat = if chance.one_in(25) {
        chance.choose(&[seats, 8, 1 << 31])
    } else {
        chance.below(seats)
    };
    let there = pair.model.seats.get(seat);
    let vacant = there.is_none_or(|seat| seat.claim.is_none());
    match chance.below(12) {
        0..=2 if vacant || chance.one_in(8) => {
            let image = image(chance, pair, seat);
            pair.load(seat as u32, &image, tally)?;
        }
        3 if !vacant || chance.one_in(4) => {
            pair.clear(seat as u32, tally)?;
        }
        4 if !vacant && chance.one_in(3) => {
            let steps = u32::MAX - chance.below(6) as u32;
            pair.amend(tally, |machine| {
                if let Some(claim) = &mut machine.seats[seat].claim {
                    claim.steps = steps;
                }
            });
        }
        5 if chance.one_in(3) => refused_run(chance, pair, tally)?,
        6 if chance.one_in(20) => long_run(chance, pair, tally)?,
        _ => {
            let schedule = schedule(chance, pair);
            pair.run(&schedule, schedule.len() / 2 + chance.below(4), tally)?;
        }
    }
    Ok(())
}

/// An image for this seat; now and then with more slots than it has cells.
fn image(chance: &mut Chance, pair: &Pair, seat: usize) -> Vec<u8> {
    let there = pair.model.seats.get(seat);
    let cells = there.map_or(8, |seat| seat.region.cells);
    let cells = if chance.one_in(20) { cells + 1 } else { cells };
    images::any(chance, cells)
}

/// Runs of odd length, over-long, or with too little room for the answers.
fn refused_run(chance: &mut Chance, pair: &mut Pair, tally: &mut Tally) -> Agreed<()> {
    let entries = chance.within(1, 30);
    let (length, room) = match chance.below(5) {
        0 => (2 * entries + 1, chance.choose(&[0, entries, 2 * entries])),
        1 => (chance.choose(&[65_535, 65_536, 70_000]), 40_000),
        2 => (65_534, 32_766),
        3 => (2 * entries, entries - 1),
        _ => (2 * entries, 0),
    };
    let seats = pair.model.seats.len() + 1;
    let ends = (0..length).map(|i| [seats, 4][i % 2]);
    let schedule: Vec<u8> = ends.map(|end| chance.below(end) as u8).collect();
    pair.run(&schedule, room, tally)?;
    Ok(())
}

/// A schedule, mostly of seats that run and of picks that are ready.
pub fn schedule(chance: &mut Chance, pair: &Pair) -> Vec<u8> {
    let seats = &pair.model.seats;
    let runs = |claim: &Claim| claim.status() == Status::Running && claim.steps < u32::MAX;
    let mut running: Vec<usize> = (0..seats.len()).collect();
    running.retain(|i| seats[*i].claim.as_ref().is_some_and(runs));
    let most = (12 * running.len()).max(4);
    let entries = match chance.below(40) {
        0 => 0,
        1 => 60,
        _ => chance.within(1, most),
    };
    let greatest_pick = chance.choose(&[1, 3, 6]);
    let mut schedule = Vec::new();
    for _ in 0..entries {
        let seat = match chance.below(40) {
            0 => chance.choose(&[seats.len(), 8, 255]),
            1.. if !running.is_empty() => chance.choose(&running),
            _ => chance.below(seats.len()),
        };
        let pick = match chance.below(40) {
            0 => chance.byte(),
            1 => chance.below(33) as u8,
            2..=15 => chance.below(greatest_pick) as u8,
            _ => 0,
        };
        schedule.extend([seat as u8, pick]);
    }
    schedule
}
