//! The worked sheets W1 to W10 of the rules, with the values written there.
use model::claim::Status::{self, *};
use model::value::Value::{self, *};
use model::Machine;

/// An image with these slots, inputs and code.
fn image(slots: u8, inputs: &[Value], code: &[u8]) -> Vec<u8> {
    let mut image = vec![0x80, slots];
    for input in inputs {
        match input {
            Integer(integer) => {
                image.push(0x81);
                image.extend(integer.to_le_bytes());
            }
            Float(float) => {
                image.push(0x82);
                image.extend(float.to_le_bytes());
            }
            Boolean(boolean) => image.extend([0x83, u8::from(*boolean)]),
            Nil => image.push(0x84),
            Location(_) => panic!("no input is a location"),
        }
    }
    image.push(0x85);
    image.extend(code);
    image
}

/// The image in seat 0, with 8 cells and 4 threads.
fn loaded(image: &[u8]) -> Machine {
    let mut machine = Machine::open(&[8, 4]).unwrap();
    machine.load(0, image).unwrap();
    machine
}

/// Runs seat 0 with these picks.
fn picks(machine: &mut Machine, picks: &[u8]) -> Vec<u8> {
    let schedule: Vec<u8> = picks.iter().flat_map(|pick| [0, *pick]).collect();
    machine.run(&schedule, picks.len()).unwrap()
}

/// Status, refusal and position of seat 0.
fn standing(machine: &Machine) -> (Status, u8, u16) {
    let report = machine.report(0).unwrap();
    (report.status, report.refusal, report.position)
}

#[test]
fn w1_adds_two_inputs() {
    let mut machine = loaded(&image(3, &[Integer(5), Integer(7)], &[0x10, 1, 2, 7, 0, 0]));
    assert_eq!(picks(&mut machine, &[0; 3]), [0, 0, 1]);
    let report = machine.report(0).unwrap();
    assert_eq!(
        (report.status, report.result, report.steps),
        (Finished, Some(Integer(12)), 3)
    );
}

#[test]
fn w2_leaves_its_region() {
    let code = [0x0F, 7, 2, 0x16, 2, 1, 7, 0, 0x0A, 0, 0];
    let image = image(3, &[Integer(4)], &code);
    for neighbour in [false, true] {
        let mut machine = Machine::open(&[4, 4, 4, 4]).unwrap();
        machine.load(0, &image).unwrap();
        if neighbour {
            machine.load(1, &image).unwrap();
        }
        assert_eq!(picks(&mut machine, &[0; 5]), [0, 0, 0, 0, 3]);
        assert_eq!(standing(&machine), (Refused, 1, 8));
    }
}

#[test]
fn w3_waits_for_ever() {
    let mut machine = loaded(&image(1, &[], &[5, 0, 0]));
    assert_eq!(picks(&mut machine, &[0]), [2]);
    assert_eq!(standing(&machine), (Deadlocked, 0, 0));
    assert_eq!(picks(&mut machine, &[0]), [5]);
}

#[test]
fn w4_stores_twice() {
    let mut machine = loaded(&image(1, &[], &[4, 7, 0, 7, 0, 0]));
    assert_eq!(picks(&mut machine, &[0; 3]), [0, 0, 3]);
    assert_eq!(standing(&machine), (Refused, 5, 3));
}

#[test]
fn w5_wakes_newest_first() {
    let code = [0x18, 0x0A, 0, 0x18, 0x0D, 0, 4, 7, 1, 0, 5, 1, 0, 5, 1, 0];
    let mut machine = loaded(&image(2, &[], &code));
    assert_eq!(picks(&mut machine, &[0, 0, 1, 1, 0, 0]), [0, 0, 2, 2, 0, 0]);
    let claim = machine.seats[0].claim.as_ref().unwrap();
    let positions: Vec<u16> = claim.ready.iter().map(|thread| thread.position).collect();
    assert_eq!(positions, [9, 15, 12]);
}

#[test]
fn w6_touch_drops_the_accumulator() {
    let code = [1, 5, 0, 0, 0, 0, 0, 0, 0, 5, 1, 7, 0, 0];
    let mut machine = loaded(&image(2, &[Nil], &code));
    picks(&mut machine, &[0; 4]);
    let report = machine.report(0).unwrap();
    assert_eq!((report.status, report.result), (Finished, Some(Nil)));
}

#[test]
fn w7_fetches_from_an_empty_cell() {
    let mut machine = loaded(&image(2, &[Integer(1)], &[9, 1, 7, 0, 0x0C, 0, 0]));
    assert_eq!(picks(&mut machine, &[0; 3]), [0, 0, 2]);
    let report = machine.report(0).unwrap();
    assert_eq!((report.status, report.used), (Deadlocked, 3));
}

#[test]
fn w8_fills_its_share() {
    let mut machine = loaded(&image(2, &[Integer(6)], &[8, 1, 0]));
    picks(&mut machine, &[0; 2]);
    let report = machine.report(0).unwrap();
    assert_eq!((report.status, report.used), (Finished, 8));
    let mut machine = loaded(&image(2, &[Integer(7)], &[8, 1, 0]));
    picks(&mut machine, &[0; 2]);
    assert_eq!(standing(&machine), (Refused, 7, 0));
}

#[test]
fn w9_gives_the_place() {
    let mut machine = Machine::open(&[8, 4]).unwrap();
    assert_eq!(machine.load(0, &[0x80, 1, 0x85, 4]), Err((23, 3)));
    assert_eq!(machine.load(0, &[]), Err((23, 0)));
}

#[test]
fn w10_arithmetic() {
    let least = Integer(i64::MIN);
    let greatest = Integer(i64::MAX);
    let sheets = [
        (0x10, greatest, Integer(0), Some(greatest)),
        (0x10, greatest, Integer(1), None),
        (0x13, Integer(-7), Integer(2), Some(Integer(-3))),
        (0x13, least, Integer(-1), None),
        (0x10, Float(0.5), Float(0.25), Some(Float(0.75))),
        (0x13, Float(1.0), Float(0.0), None),
    ];
    for (kind, first, second, answer) in sheets {
        let mut machine = loaded(&image(3, &[first, second], &[kind, 1, 2, 7, 0, 0]));
        picks(&mut machine, &[0; 3]);
        let report = machine.report(0).unwrap();
        assert_eq!(report.result, answer);
        assert_eq!(report.refusal, if answer.is_some() { 0 } else { 9 });
    }
}
