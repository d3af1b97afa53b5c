//! The tuned model answers what the proved machine answers: random sheets, good and damaged, random schedules, and
//! every call in random order.
use bench::tuned::{Report, Tuned};
use lapisgable::lent::{self, Lent, Told};
use lapisgable::{Instruction, Instruction::*, Sheet, Value};

/// Marsaglia's xorshift.
struct Dice(u64);

impl Dice {
    fn below(&mut self, n: u64) -> u64 {
        self.0 ^= self.0 << 13;
        self.0 ^= self.0 >> 7;
        self.0 ^= self.0 << 17;
        (self.0 >> 11) % n
    }

    fn among(&mut self, choices: &[u8]) -> u8 {
        choices[self.below(choices.len() as u64) as usize]
    }

    /// Mostly one of these slots, now and then any.
    fn slot(&mut self, fitting: &[u8]) -> u8 {
        match self.below(16) {
            0 => self.below(13) as u8,
            _ => self.among(fitting),
        }
    }
}

/// The slots of a sheet by what they hold once it has begun: figures, a truth, an M-cell, a frame, nothing yet.
const FIGURES: [u8; 3] = [1, 2, 4];
const TRUTH: [u8; 1] = [3];
const TILL: [u8; 1] = [5];
const FRAME: [u8; 1] = [6];
const OPEN: [u8; 6] = [0, 7, 8, 9, 10, 11];
const SLOTS: u8 = 12;

const INTEGERS: [i64; 8] = [0, 1, 2, 3, -1, 1_024, i64::MAX, i64::MIN];
const FLOATS: [f64; 6] = [0.0, -0.0, 0.5, -3.0, f64::MAX, f64::MIN_POSITIVE];

fn value(dice: &mut Dice) -> Value {
    match dice.below(8) {
        0..4 => Value::Integer(INTEGERS[dice.below(8) as usize]),
        4..6 => Value::Float(FLOATS[dice.below(6) as usize]),
        6 => Value::Boolean(dice.below(2) == 1),
        _ => Value::Nil,
    }
}

fn operation(dice: &mut Dice) -> Instruction {
    let (s, t) = (dice.slot(&FIGURES), dice.slot(&FIGURES));
    match dice.below(6) {
        0 => Add(s, t),
        1 => Sub(s, t),
        2 => Mul(s, t),
        3 => Div(s, t),
        4 => Less(s, t),
        _ => Equal(s, t),
    }
}

fn constant(dice: &mut Dice) -> Instruction {
    match dice.below(5) {
        0 => Int(INTEGERS[dice.below(8) as usize]),
        1 => Float(FLOATS[dice.below(6) as usize]),
        2 => Bool(dice.below(2) == 1),
        3 => Nil,
        _ => Own,
    }
}

fn instruction(dice: &mut Dice, count: u64) -> Instruction {
    let (a, b) = (dice.below(count) as usize, dice.below(count) as usize);
    let k = dice.below(8) as u8;
    match dice.below(32) {
        0 | 1 => End,
        2..5 => constant(dice),
        5..8 => operation(dice),
        8..10 => Touch(dice.slot(&OPEN)),
        10 => Load(dice.slot(&FIGURES)),
        11..15 => Store(dice.slot(&OPEN)),
        15 => Ialloc(dice.slot(&[1])),
        16 => Malloc(dice.slot(&[1])),
        17 => Ifetch(dice.slot(&FRAME)),
        18 => Istore(dice.slot(&FRAME), dice.slot(&FIGURES)),
        19..21 => Mfetch(dice.slot(&TILL)),
        21..23 => Mstore(dice.slot(&TILL), dice.slot(&FIGURES)),
        23 => Frame(1 + k),
        24 => Offset(dice.slot(&FRAME), dice.slot(&FIGURES)),
        25..27 => Switch(dice.slot(&TRUTH), a, b),
        27 => Spawn(a),
        28 => Apply(a, dice.slot(&FRAME)),
        29 => Get(dice.slot(&FRAME), k),
        _ => Put(dice.slot(&FRAME), k),
    }
}

/// What most sheets start with: a size in slot 1, a truth in slot 3, an M-cell at slot 5 and a frame at slot 6.
const PRELUDE: [Instruction; 4] = [Malloc(1), Store(5), Frame(7), Store(6)];

fn inputs(dice: &mut Dice) -> Vec<Value> {
    let size = Value::Integer(1 + dice.below(3) as i64);
    let truth = Value::Boolean(dice.below(2) == 1);
    vec![size, value(dice), truth, value(dice)]
}

/// A good sheet, or now and then one with a byte changed or its end cut off.
fn image(dice: &mut Dice) -> Vec<u8> {
    let sheet = Sheet::new(SLOTS);
    let sheet = inputs(dice).into_iter().fold(sheet, Sheet::input);
    let count = 8 + dice.below(30);
    let mut code = PRELUDE[..4 * dice.below(8).min(1) as usize].to_vec();
    while code.len() as u64 + 1 < count {
        code.push(instruction(dice, count));
    }
    code.push(End);
    let mut image = sheet.code(&code);
    let at = dice.below(image.len() as u64) as usize;
    match dice.below(12) {
        0 => image[at] = dice.below(256) as u8,
        1 => image.truncate(at),
        _ => {}
    }
    image
}

/// Buffers of the proved machine.
struct Buffers {
    words: Vec<Vec<u64>>,
    book: Vec<u32>,
    tags: Vec<u16>,
    images: Vec<u8>,
}

impl Buffers {
    fn new() -> Buffers {
        Buffers {
            words: vec![
                vec![0; lent::WORDS],
                vec![0; lent::HEADS],
                vec![0; lent::ACCS],
            ],
            book: vec![0; lent::BOOK],
            tags: vec![0; lent::TAGS],
            images: vec![0; lent::IMAGES],
        }
    }

    fn lent(&mut self) -> Lent<'_> {
        let [words, heads, accs] = &mut self.words[..] else {
            unreachable!()
        };
        Lent {
            book: &mut self.book,
            tags: &mut self.tags,
            words,
            heads,
            accs,
            images: &mut self.images,
        }
    }
}

fn number(answer: Result<(), u32>) -> u32 {
    answer.err().unwrap_or(0)
}

fn told(answer: Result<Report, u32>) -> Told {
    let number = answer.err().unwrap_or(0);
    let Report {
        status,
        refusal,
        position,
        used,
        live,
        steps,
        kind,
        word,
    } = answer.unwrap_or_default();
    Told {
        number,
        status,
        refusal,
        position,
        used,
        live,
        steps,
        kind,
        word,
    }
}

const ENTRIES: usize = 40;

fn schedule(dice: &mut Dice) -> Vec<u8> {
    let picks = 1 + dice.below(4);
    let mut entry = || [(dice.below(10) / 3) as u8, dice.below(picks) as u8];
    (0..ENTRIES).flat_map(|_| entry()).collect()
}

/// The two machines, and how often each answer came.
struct Both<'a> {
    proved: Lent<'a>,
    tuned: Tuned,
    seen: [u64; 8],
}

impl Both<'_> {
    fn load(&mut self, seat: u32, image: &[u8]) {
        let lodged = self.proved.load(seat, image);
        let (number, place) = self.tuned.load(seat, image).err().unwrap_or((0, 0));
        let expected = (number as u64, place);
        assert_eq!((lodged.number, lodged.place), expected, "{image:02x?}");
    }

    fn run(&mut self, schedule: &[u8]) {
        let mut answers = [[9; ENTRIES]; 2];
        let number = number(self.tuned.run(schedule, &mut answers[1]));
        assert_eq!(self.proved.run(schedule, &mut answers[0]), number);
        assert_eq!(answers[0], answers[1]);
        for answer in answers[0] {
            self.seen[answer as usize] += 1;
        }
    }

    fn clear(&mut self, seat: u32) {
        assert_eq!(self.proved.clear(seat), number(self.tuned.clear(seat)));
    }

    fn compare(&self, seat: u32) {
        assert_eq!(self.proved.report(seat), told(self.tuned.report(seat)));
    }
}

fn call(dice: &mut Dice, both: &mut Both) {
    let seat = dice.below(10) as u32 / 3;
    match dice.below(8) {
        0 => both.load(seat, &image(dice)),
        1..4 => {
            both.clear(seat);
            both.load(seat, &image(dice));
        }
        _ => both.run(&schedule(dice)),
    }
    both.compare(seat);
}

/// A machine with three seats, and a hundred calls on it.
fn history(dice: &mut Dice) -> [u64; 8] {
    let mut share = || [11 + dice.below(60) as u32, 1 + dice.below(8) as u32];
    let shares: Vec<u32> = (0..3).flat_map(|_| share()).collect();
    let (mut buffers, mut tuned) = (Buffers::new(), Tuned::default());
    let mut proved = buffers.lent();
    assert_eq!(proved.open(&shares), number(tuned.open(&shares)));
    let seen = [0; 8];
    let mut both = Both {
        proved,
        tuned,
        seen,
    };
    (0..100).for_each(|_| call(dice, &mut both));
    (0..4).for_each(|seat| both.compare(seat));
    both.seen
}

#[test]
fn random_calls_answer_the_same() {
    let mut dice = Dice(0x2545_f491_4f6c_dd1d);
    let mut seen = [0; 8];
    for _ in 0..300 {
        let more = history(&mut dice);
        seen.iter_mut().zip(more).for_each(|(all, n)| *all += n);
    }
    // Every answer but 7, which takes four thousand million steps.
    assert!(seen[..7].iter().all(|&count| count > 1_000), "{seen:?}");
}

#[test]
fn refused_openings_answer_the_same() {
    let rows: [&[u32]; 6] = [
        &[],
        &[8],
        &[0, 1],
        &[1025, 1],
        &[1, 33],
        &[1024, 1, 1024, 1, 1, 1],
    ];
    for row in rows {
        let mut buffers = Buffers::new();
        assert_eq!(
            buffers.lent().open(row),
            number(Tuned::default().open(row)),
            "{row:?}"
        );
    }
}
