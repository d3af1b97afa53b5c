//! Each number that a machine of its own buffers may answer, by the call that answers it.
use lapisgable::{Answer, Entry, Instruction::*, Machine, Refusal, Report, Share, Sheet, Status};

const SMALL: Share = Share {
    cells: 8,
    threads: 4,
};

fn opened() -> Machine {
    Machine::open(&[SMALL; 2]).unwrap()
}

fn number<T>(answer: Result<T, Refusal>) -> u32 {
    answer.map_or_else(Refusal::number, |_| 0)
}

#[test]
fn open_refuses_shares_out_of_range() {
    let share = |cells, threads| Share { cells, threads };
    let refused = [
        vec![],
        vec![SMALL; 9],
        vec![share(0, 1)],
        vec![share(1_025, 1)],
        vec![share(1, 0)],
        vec![share(1, 33)],
        vec![share(1_024, 1), share(1_024, 1), share(1, 1)],
    ];
    for shares in refused {
        assert_eq!(number(Machine::open(&shares)), 30, "{shares:?}");
    }
    assert_eq!(number(Machine::open(&[share(1_024, 32); 2])), 0);
}

#[test]
fn load_tells_what_is_wrong() {
    let mut machine = opened();
    let good = Sheet::new(1).code(&[End]);
    assert_eq!(number(machine.load(2, &good)), 20);
    assert_eq!(number(machine.load(0, &[0; 4_097])), 22);
    assert_eq!(number(machine.load(0, &good[..3])), 23);
    assert_eq!(number(machine.load(0, &Sheet::new(9).code(&[End]))), 24);
    assert_eq!(number(machine.load(0, &good)), 0);
    assert_eq!(number(machine.load(0, &[0; 4_097])), 21);
}

#[test]
fn a_target_that_is_no_instruction_is_a_bad_image() {
    let mut machine = opened();
    let astray = Sheet::new(1).code(&[Nil, Spawn(7), End]);
    let place = astray.len() - 4;
    assert_eq!(machine.load(0, &astray), Err(Refusal::BadImage { place }));
}

#[test]
fn run_wants_even_schedules_and_room() {
    let mut machine = opened();
    let mut answers = vec![9; 32_768];
    assert_eq!(number(machine.run_bytes(&[0; 3], &mut answers)), 33);
    assert_eq!(number(machine.run_bytes(&[0; 65_536], &mut answers)), 33);
    assert_eq!(number(machine.run_bytes(&[0; 4], &mut answers[..1])), 34);
    assert!(answers.iter().all(|&byte| byte == 9));
    assert_eq!(number(machine.run_bytes(&[0; 65_534], &mut answers)), 0);
    assert_eq!(answers[32_766..], [Answer::NotRunning.number(), 9]);
    assert_eq!(
        number(machine.run(&[Entry { seat: 0, pick: 0 }; 32_768])),
        33
    );
}

#[test]
fn report_and_clear_want_a_seat() {
    let mut machine = opened();
    assert_eq!(number(machine.report(2)), 20);
    assert_eq!(number(machine.clear(2)), 20);
    assert_eq!(number(machine.clear(1)), 35);
    let vacant = Report {
        status: Status::Vacant,
        cells: 0,
        threads: 0,
        steps: 0,
        result: None,
    };
    assert!(machine.reports().eq([vacant; 2]));
}

#[test]
fn numbers_and_names_agree() {
    for number in (20..=24).chain(30..=35) {
        let refusal = Refusal::told(number, 0).unwrap_err();
        assert_eq!(refusal.number(), number, "{refusal}");
    }
    for number in 0..8 {
        assert_eq!(
            Answer::with_number(number).map(Answer::number),
            Some(number)
        );
    }
    assert_eq!(Answer::with_number(8), None);
}

#[test]
fn a_cleared_seat_takes_the_next_claim() {
    let mut machine = opened();
    let sheet = Sheet::new(1).code(&[Load(0), End]);
    for _ in 0..3 {
        machine.load(1, &sheet).unwrap();
        machine.run(&[Entry { seat: 1, pick: 0 }]).unwrap();
        assert!(matches!(
            machine.report(1).unwrap().status,
            Status::Refused { .. }
        ));
        machine.clear(1).unwrap();
    }
}
