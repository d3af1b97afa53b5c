//! The worked sheets W1 to W10 of the scope document, with its bytes and its facts.
use lapisgable::{Answer, Entry, Forbidden, Instruction, Machine, Refusal};
use lapisgable::{Report, Share, Sheet, Status, Value};
use Instruction::{End, Load, Spawn, Store, Touch};
use Value::{Boolean, Float, Integer, Nil};

const SMALL: Share = Share {
    cells: 8,
    threads: 4,
};

/// An image with these slots and inputs, and its code as the document writes it.
fn image(slots: u8, inputs: &[Value], code: &[u8]) -> Vec<u8> {
    let sheet = inputs.iter().fold(Sheet::new(slots), |s, v| s.input(*v));
    [sheet.code(&[]), code.to_vec()].concat()
}

fn loaded(shares: &[Share], image: &[u8]) -> Machine {
    let mut machine = Machine::open(shares).unwrap();
    machine.load(0, image).unwrap();
    machine
}

/// The numbers that seat 0 answers to these picks.
fn numbers(machine: &mut Machine, picks: &[u8]) -> Vec<u8> {
    let entries: Vec<Entry> = picks.iter().map(|&pick| Entry { seat: 0, pick }).collect();
    machine.run(&entries).unwrap().map(Answer::number).collect()
}

/// The answers to so many picks of 0, and the report after them.
fn ran(machine: &mut Machine, entries: usize) -> (Vec<u8>, Report) {
    let answers = numbers(machine, &vec![0; entries]);
    (answers, machine.report(0).unwrap())
}

fn run_alone(image: &[u8], entries: usize) -> (Vec<u8>, Report) {
    ran(&mut loaded(&[SMALL], image), entries)
}

fn refused(why: Forbidden, position: u32) -> Status {
    Status::Refused { why, position }
}

#[test]
fn w1_two_damages_are_summed() {
    let sum = image(3, &[Integer(5), Integer(7)], &[0x10, 1, 2, 7, 0, 0]);
    let (answers, report) = run_alone(&sum, 3);
    assert_eq!(answers, [0, 0, 1]);
    let expected = Report {
        status: Status::Finished,
        cells: 3,
        threads: 0,
        steps: 3,
        result: Some(Integer(12)),
    };
    assert_eq!(report, expected);
}

#[test]
fn w2_a_neighbours_cell_is_no_cell() {
    let code = [0x0F, 7, 2, 0x16, 2, 1, 7, 0, 0x0A, 0, 0];
    let reaching = image(3, &[Integer(4)], &code);
    let share = Share {
        cells: 4,
        threads: 4,
    };
    for neighbour in [false, true] {
        let mut machine = loaded(&[share; 2], &reaching);
        if neighbour {
            machine.load(1, &reaching).unwrap();
        }
        let (answers, report) = ran(&mut machine, 5);
        assert_eq!(answers, [0, 0, 0, 0, 3]);
        assert_eq!(report.status, refused(Forbidden::NoSuchCell, 8));
    }
}

#[test]
fn w3_a_thread_that_nobody_wakes() {
    let (answers, report) = run_alone(&image(1, &[], &[5, 0, 0]), 2);
    assert_eq!(answers, [2, 5]);
    assert_eq!(report.status, Status::Deadlocked);
    assert_eq!((report.steps, report.threads), (1, 1));
}

#[test]
fn w4_a_figure_is_filled_once() {
    let (answers, report) = run_alone(&image(1, &[], &[4, 7, 0, 7, 0, 0]), 3);
    assert_eq!(answers, [0, 0, 3]);
    assert_eq!(report.status, refused(Forbidden::CellFull, 3));
    assert_eq!(report.result, Some(Nil));
}

#[test]
fn w5_all_waiters_are_woken() {
    let code = [0x18, 0x0A, 0, 0x18, 0x0D, 0, 4, 7, 1, 0, 5, 1, 0, 5, 1, 0];
    let mut machine = loaded(&[SMALL], &image(2, &[], &code));
    let answers = numbers(&mut machine, &[0, 0, 1, 1, 0, 0]);
    assert_eq!(answers, [0, 0, 2, 2, 0, 0]);
    assert_eq!(machine.report(0).unwrap().threads, 3);
    assert_eq!(numbers(&mut machine, &[3, 2, 1, 0, 0]), [6, 1, 1, 1, 5]);
    assert_eq!(machine.report(0).unwrap().status, Status::Finished);
}

/// W5 with a refused LOAD where each thread goes on, so that its position is reported.
#[test]
fn w5_the_newest_waiter_is_woken_first() {
    let code = [
        Spawn(6),
        Spawn(9),
        Instruction::Nil,
        Store(1),
        Load(0),
        End,
        Touch(1),
        Load(0),
        End,
        Touch(1),
        Load(0),
        End,
    ];
    let mut machine = loaded(&[SMALL], &Sheet::new(2).code(&code));
    let answers = numbers(&mut machine, &[0, 0, 1, 1, 0, 0]);
    assert_eq!(answers, [0, 0, 2, 2, 0, 0]);
    for (pick, position) in [(0, 9), (1, 19), (2, 14)] {
        let mut copy = machine.clone();
        assert_eq!(numbers(&mut copy, &[pick]), [3]);
        let status = copy.report(0).unwrap().status;
        assert_eq!(status, refused(Forbidden::SlotEmpty, position));
    }
}

#[test]
fn w6_touch_drops_the_accumulator() {
    let code = [1, 5, 0, 0, 0, 0, 0, 0, 0, 5, 1, 7, 0, 0];
    let (answers, report) = run_alone(&image(2, &[Nil], &code), 4);
    assert_eq!(answers, [0, 0, 0, 1]);
    assert_eq!(
        (report.status, report.result),
        (Status::Finished, Some(Nil))
    );
}

#[test]
fn w7_an_empty_till_is_waited_for() {
    let (answers, report) = run_alone(&image(2, &[Integer(1)], &[9, 1, 7, 0, 0x0C, 0, 0]), 3);
    assert_eq!(answers, [0, 0, 2]);
    assert_eq!((report.status, report.cells), (Status::Deadlocked, 3));
}

#[test]
fn w8_room_is_the_share() {
    let table = |size| run_alone(&image(2, &[Integer(size)], &[8, 1, 0]), 2);
    let (answers, report) = table(6);
    assert_eq!(answers, [0, 1]);
    assert_eq!((report.status, report.cells), (Status::Finished, 8));
    let (answers, report) = table(7);
    assert_eq!(answers, [3, 5]);
    assert_eq!(report.status, refused(Forbidden::NoCellsLeft, 0));
}

#[test]
fn w9_bad_images_have_a_place() {
    let mut machine = Machine::open(&[SMALL]).unwrap();
    let cut = machine.load(0, &[0x80, 1, 0x85, 4]);
    assert_eq!(cut, Err(Refusal::BadImage { place: 3 }));
    assert_eq!(machine.load(0, &[]), Err(Refusal::BadImage { place: 0 }));
    assert_eq!(machine.report(0).unwrap().status, Status::Vacant);
}

#[test]
fn w10_arithmetic_at_its_ends() {
    let done = |kind, a, b| {
        let (_, report) = run_alone(&image(3, &[a, b], &[kind, 1, 2, 7, 0, 0]), 3);
        report.result.ok_or(report.status)
    };
    let (add, div) = (0x10, 0x13);
    let out = Err(refused(Forbidden::Arithmetic, 0));
    assert_eq!(
        done(add, Integer(i64::MAX), Integer(0)),
        Ok(Integer(i64::MAX))
    );
    assert_eq!(done(add, Integer(i64::MAX), Integer(1)), out);
    assert_eq!(done(div, Integer(-7), Integer(2)), Ok(Integer(-3)));
    assert_eq!(done(div, Integer(i64::MIN), Integer(-1)), out);
    assert_eq!(done(add, Float(0.5), Float(0.25)), Ok(Float(0.75)));
    assert_eq!(done(div, Float(1.0), Float(0.0)), out);
    assert_eq!(done(0x15, Boolean(true), Boolean(true)), Ok(Boolean(true)));
}
