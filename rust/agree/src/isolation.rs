//! Isolation: one seat's trace among quite different neighbours gives the same bytes of its parts, the same answers and reports.
use crate::buffers::Buffers;
use crate::chance::Chance;
use crate::images;
use crate::pair::{same, Agreed, Pair};
use crate::states;
use crate::tally::Tally;
use lapisgable::lent::Told;

/// What is said to the seat.
enum Act {
    Load(Vec<u8>),
    Picks(Vec<u8>),
    Clear,
}

/// What the seat shows after an act.
#[derive(Debug, PartialEq)]
struct Seen {
    answers: Vec<u32>,
    report: Told,
    parts: Buffers,
}

/// The same trace in two worlds that have nothing in common but the shares.
pub fn of_a_seat(chance: &mut Chance, tally: &mut Tally) -> Agreed<()> {
    let seats = chance.within(2, 8);
    let shares = states::shares(chance, seats);
    let seat = chance.below(seats);
    let trace = trace(chance, shares[2 * seat]);
    tally.isolations += 1;
    let first = world(chance, &shares, seat, &trace, tally)?;
    let second = world(chance, &shares, seat, &trace, tally)?;
    for (i, (one, other)) in first.iter().zip(&second).enumerate() {
        let act = format!("act {i} on seat {seat} among other neighbours");
        same(&act, &one.answers, &other.answers)?;
        same(&act, one.report, other.report)?;
        one.parts
            .same(&other.parts)
            .map_err(|difference| format!("{act}: {difference}"))?;
    }
    Ok(())
}

fn trace(chance: &mut Chance, cells: u32) -> Vec<Act> {
    let mut trace = Vec::new();
    for _ in 0..chance.within(1, 3) {
        trace.push(Act::Load(images::any(chance, cells)));
        for _ in 0..chance.within(1, 4) {
            let greatest = chance.choose(&[1, 1, 4]);
            let picks = (0..chance.below(20)).map(|_| chance.below(greatest) as u8);
            trace.push(Act::Picks(picks.collect()));
        }
        if chance.one_in(4) {
            trace.push(Act::Load(images::any(chance, cells)));
        }
        trace.push(Act::Clear);
    }
    trace
}

fn world(
    chance: &mut Chance,
    shares: &[u32],
    seat: usize,
    trace: &[Act],
    tally: &mut Tally,
) -> Agreed<Vec<Seen>> {
    let opened = Pair::open(shares, Buffers::garbage(chance), tally)?;
    let mut pair = opened.ok_or("good shares are refused")?;
    let mut seen = Vec::new();
    for act in trace {
        for _ in 0..chance.below(4) {
            disturb(chance, &mut pair, seat, tally)?;
        }
        let answers = match act {
            Act::Load(image) => vec![pair.load(seat as u32, image, tally)?],
            Act::Clear => vec![pair.clear(seat as u32, tally)?],
            Act::Picks(picks) => run_among(chance, &mut pair, seat, picks, tally)?,
        };
        let region = pair.model.seats[seat].region;
        let parts = pair
            .lent
            .parts(seat, region.start as usize, region.cells as usize);
        seen.push(Seen {
            answers,
            report: pair.lent.lent().report(seat as u32),
            parts,
        });
    }
    Ok(seen)
}

/// Any seat but this one, now and then an absent one.
fn other(chance: &mut Chance, seats: usize, seat: usize) -> usize {
    (seat + chance.within(1, seats - 1)) % seats + if chance.one_in(30) { 100 } else { 0 }
}

/// A load or a clearing of another seat.
fn disturb(chance: &mut Chance, pair: &mut Pair, seat: usize, tally: &mut Tally) -> Agreed<u32> {
    let other = other(chance, pair.model.seats.len(), seat) as u32;
    match chance.below(4) {
        0 => pair.clear(other, tally),
        _ => {
            let cells = chance.choose(&[4, 30]);
            let image = images::any(chance, cells);
            pair.load(other, &image, tally)
        }
    }
}

/// Runs the picks of this seat in order, with entries of other seats between them; the answers to this seat.
fn run_among(
    chance: &mut Chance,
    pair: &mut Pair,
    seat: usize,
    picks: &[u8],
    tally: &mut Tally,
) -> Agreed<Vec<u32>> {
    let seats = pair.model.seats.len();
    let mut schedule = Vec::new();
    for pick in picks {
        for _ in 0..chance.below(4) {
            schedule.extend([other(chance, seats, seat) as u8, chance.below(3) as u8]);
        }
        schedule.extend([seat as u8, *pick]);
    }
    let answers = pair.run(&schedule, schedule.len() / 2, tally)?;
    let own = schedule
        .chunks(2)
        .zip(answers)
        .filter(|(entry, _)| usize::from(entry[0]) == seat);
    Ok(own.map(|(_, answer)| answer.into()).collect())
}
