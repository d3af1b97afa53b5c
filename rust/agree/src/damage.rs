//! Damaged states: every field of docs/STATE.md set wrong, and buffers that are too short.
use crate::buffers::{Buffers, MINIMA};
use crate::chance::Chance;
use crate::harms::harms;
use crate::images;
use crate::layout;
use crate::pair::{same, told, Agreed, Pair};
use crate::runs;
use crate::sound::sound;
use crate::states;
use crate::tally::Tally;
use lapisgable::lent::Lodged;

/// A sound state, harmed in many places in turn.
pub fn of_fields(chance: &mut Chance, tally: &mut Tally) -> Agreed<()> {
    let machine = states::machine(chance);
    let mut whole = Buffers::garbage(chance);
    layout::write(&machine, &mut whole);
    same("the soundness test of a state", sound(&whole), true)?;
    let harms = harms(chance, &machine, &whole);
    for harm in &harms {
        let mut harmed = whole.clone();
        harm.put(&mut harmed);
        let second = chance.choose(&harms);
        if chance.one_in(6) {
            second.put(&mut harmed);
        }
        tally.tell(format_args!("{harm:x?}, perhaps with {second:x?}"));
        judge(chance, harmed, tally)
            .map_err(|difference| format!("{harm:x?} (perhaps {second:x?}): {difference}"))?;
    }
    Ok(())
}

/// An unsound state is turned down; a sound one is worked on.
fn judge(chance: &mut Chance, harmed: Buffers, tally: &mut Tally) -> Agreed<()> {
    tally.damaged += 1;
    if !sound(&harmed) {
        return turned_down(chance, harmed, tally);
    }
    tally.damaged_but_sound += 1;
    let mut pair = Pair::resume(layout::read(&harmed), harmed.clone(), tally)?;
    pair.lent
        .same(&harmed)
        .map_err(|difference| format!("read back and laid out: {difference}"))?;
    let mut schedule = runs::schedule(chance, &pair);
    schedule.truncate(24);
    pair.run(&schedule, schedule.len() / 2, tally)?;
    Ok(())
}

/// Load, run, report and clear all answer 32, whatever else is wrong with the call, and leave every byte.
fn turned_down(chance: &mut Chance, mut unsound: Buffers, tally: &mut Tally) -> Agreed<()> {
    let before = unsound.clone();
    let seat = chance.choose(&[0, 0, 1, 7, 8, u32::MAX]);
    let image = images::any(chance, 30);
    let length = chance.choose(&[0, 1, 2, 20]);
    let schedule = chance.bytes(length);
    let mut answers = vec![0xA5; chance.choose(&[0, 10])];
    let lent = &mut unsound.lent();
    let (number, place) = (32, 0);
    same("load", lent.load(seat, &image), Lodged { number, place })?;
    same("run", lent.run(&schedule, &mut answers), 32)?;
    same("report", lent.report(seat), told(Err(32)))?;
    same("clear", lent.clear(seat), 32)?;
    (0..4).for_each(|_| tally.call(32));
    if answers.iter().any(|answer| *answer != 0xA5) {
        return Err("a refused run wrote an answer".into());
    }
    unsound.same(&before)
}

/// Each buffer too short in turn: 31 for an opening, good shares or bad, and 32 for all else.
pub fn of_lengths(chance: &mut Chance, tally: &mut Tally) -> Agreed<()> {
    let mut whole = Buffers::garbage(chance);
    layout::write(&states::machine(chance), &mut whole);
    judge(chance, Buffers::bare(), tally)?;
    let garbage = Buffers::garbage(chance);
    judge(chance, garbage, tally)?;
    for (which, least) in MINIMA.into_iter().enumerate() {
        for length in [least - 1, 0, chance.below(least)] {
            let mut short = whole.clone();
            short.cut(which, length);
            let before = short.clone();
            for shares in [&[8, 4][..], &[], &[0, 33], &[1, 1, 1]] {
                same("open", short.lent().open(shares), 31)?;
                tally.call(31);
            }
            short.same(&before)?;
            judge(chance, short, tally)?;
        }
    }
    Ok(())
}
