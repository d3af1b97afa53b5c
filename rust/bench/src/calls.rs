//! Single calls: what each costs on an empty state and on a full one.
use crate::both::row_of;
use crate::case::What::{Call, Run};
use crate::case::{Case, Work};
use crate::scene::Scene;
use crate::sheets;
use lapisgable::{Machine, Share};
use std::hint::black_box;

const SHARES: [Share; 8] = [Share {
    cells: 256,
    threads: 32,
}; 8];

fn vacant() -> Scene {
    Scene::seats(8, SHARES[0].cells, SHARES[0].threads)
}

/// Eight seats with one sheet, each with so many entries behind it.
fn filled(image: Vec<u8>, entries: usize) -> Scene {
    let first = (0..8).flat_map(|seat| [seat, 0].repeat(entries));
    vacant().load(image).first(first.collect())
}

/// A few frames of a small sheet.
fn small() -> Scene {
    filled(sheets::depreciation(), 40)
}

/// The first 32 instructions take up the cells and threads.
fn full() -> Scene {
    filled(sheets::full(), 32)
}

fn long() -> Scene {
    filled(sheets::long(), 32)
}

fn open() -> Work {
    Work::new(
        vacant().both(),
        |machine| *machine = Machine::open(&SHARES).expect("fair shares"),
        |machine| machine.open(&row_of(&SHARES)).expect("fair shares"),
    )
}

fn load(image: Vec<u8>) -> Work {
    let copy = image.clone();
    Work::new(
        vacant().both(),
        move |machine| machine.load(0, &image).expect("a good image"),
        move |machine| machine.load(0, &copy).expect("a good image"),
    )
}

fn report(scene: Scene) -> Work {
    Work::new(
        scene.both(),
        |machine| assert!(black_box(machine.report(7)).is_ok()),
        |machine| assert!(black_box(machine.report(7)).is_ok()),
    )
}

fn clear(scene: Scene) -> Work {
    Work::new(
        scene.both(),
        |machine| machine.clear(7).expect("a claim"),
        |machine| machine.clear(7).expect("a claim"),
    )
}

#[rustfmt::skip]
pub const CASES: [Case; 11] = [
    Case { name: "open", says: "eight seats; proved: with its buffers made", what: Call(open) },
    Case { name: "load-small", says: "47 bytes, all seats vacant", what: Call(|| load(sheets::figures())) },
    Case { name: "load-full", says: "4,096 bytes, 254 inputs, all seats vacant", what: Call(|| load(sheets::full())) },
    Case { name: "load-long", says: "4,096 bytes, nearly all code, all seats vacant", what: Call(|| load(sheets::long())) },
    Case { name: "run-vacant", says: "no entry, all seats vacant", what: Run(vacant, 0) },
    Case { name: "run-small", says: "no entry, eight seats of a small sheet", what: Run(small, 0) },
    Case { name: "run-full", says: "no entry, eight full seats", what: Run(full, 0) },
    Case { name: "run-long", says: "no entry, eight full seats of the longest code", what: Run(long, 0) },
    Case { name: "report-vacant", says: "all seats vacant", what: Call(|| report(vacant())) },
    Case { name: "report-full", says: "eight full seats", what: Call(|| report(full())) },
    Case { name: "clear-full", says: "eight full seats", what: Call(|| clear(full())) },
];
