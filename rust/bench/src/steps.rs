//! Long schedules: what a step costs.
use crate::case::{Case, What::Run};
use crate::scene::{Scene, LONGEST};
use crate::sheets;

/// One entry for each of so many seats, the first thread picked.
fn seats_in_turn(seats: u8) -> Vec<u8> {
    (0..seats).flat_map(|seat| [seat, 0]).collect()
}

/// One entry for each of so many picks, all for the first seat.
fn picks_in_turn(picks: u8) -> Vec<u8> {
    (0..picks).flat_map(|pick| [0, pick]).collect()
}

fn always(seat: u8, pick: u8) -> Vec<u8> {
    vec![seat, pick]
}

fn vacant() -> Scene {
    Scene::seats(1, 64, 32)
}

fn two_large(image: Vec<u8>) -> Scene {
    Scene::seats(2, 1_024, 2)
        .load(image)
        .turns(seats_in_turn(2))
}

fn eight(image: Vec<u8>) -> Scene {
    Scene::seats(8, 64, 4).load(image).turns(seats_in_turn(8))
}

/// Thirty-two clerks, engaged.
fn crew(turns: Vec<u8>) -> Scene {
    let engage = always(0, 0).repeat(31);
    vacant().load(sheets::crew()).first(engage).turns(turns)
}

/// One seat's sheet, its first thread always picked.
fn alone(image: Vec<u8>) -> Scene {
    vacant().load(image).turns(always(0, 0))
}

/// A claim that no longer runs.
fn stopped(image: Vec<u8>) -> Scene {
    alone(image).first(always(0, 0))
}

#[rustfmt::skip]
pub const CASES: [Case; 14] = [
    Case { name: "figures", says: "integer arithmetic", what: Run(|| alone(sheets::figures()), LONGEST) },
    Case { name: "rates", says: "float arithmetic", what: Run(|| alone(sheets::rates()), LONGEST) },
    Case { name: "accumulator", says: "INT, LOAD, SELF and the like", what: Run(|| alone(sheets::accumulator()), LONGEST) },
    Case { name: "relay", says: "two threads, a wait and a wake in four entries", what: Run(|| alone(sheets::relay()), LONGEST) },
    Case { name: "crew-last", says: "32 threads, the last one picked", what: Run(|| crew(always(0, 31)), LONGEST) },
    Case { name: "crew-turns", says: "32 threads, picked in turn", what: Run(|| crew(picks_in_turn(32)), LONGEST) },
    Case { name: "eight", says: "eight seats in turn", what: Run(|| eight(sheets::figures()), LONGEST) },
    Case { name: "depreciation", says: "frames, PUT, APPLY and END till full", what: Run(|| two_large(sheets::depreciation()), 4_400) },
    Case { name: "allocation", says: "FRAME and IALLOC till full", what: Run(|| two_large(sheets::allocation()), 3_000) },
    Case { name: "vacant", says: "a vacant seat", what: Run(|| vacant().turns(always(0, 0)), LONGEST) },
    Case { name: "finished", says: "a finished claim", what: Run(|| stopped(sheets::finished()), LONGEST) },
    Case { name: "refused", says: "a refused claim", what: Run(|| stopped(sheets::refused()), LONGEST) },
    Case { name: "no-thread", says: "a pick too high", what: Run(|| alone(sheets::figures()).turns(always(0, 9)), LONGEST) },
    Case { name: "absent", says: "no such seat", what: Run(|| vacant().turns(always(200, 0)), LONGEST) },
];
