//! What a run of cases has seen: counts, and how often each kind of instruction gave each answer.

use std::collections::BTreeMap;
use std::fmt::Arguments;

/// Columns: ran on, ended, waits, then refusals 1 to 9.
const COLUMNS: usize = 12;
const KINDS: usize = 0x1C;

#[derive(Default)]
pub struct Tally {
    pub cases: u64,
    pub machines: u64,
    pub calls: u64,
    pub images: u64,
    pub entries: u64,
    pub ran: u64,
    pub damaged: u64,
    pub damaged_but_sound: u64,
    pub isolations: u64,
    /// Numbers that calls answered.
    pub numbers: BTreeMap<u64, u64>,
    /// Answers of schedule entries, 0 to 7.
    pub answers: [u64; 8],
    table: [[u64; COLUMNS]; KINDS],
    /// Whether each call is told as it is made.
    pub aloud: bool,
}

const NAMES: [&str; KINDS] = [
    "END", "INT", "FLOAT", "BOOL", "NIL", "TOUCH", "LOAD", "STORE", "IALLOC", "MALLOC", "IFETCH",
    "ISTORE", "MFETCH", "MSTORE", "FRAME", "SELF", "ADD", "SUB", "MUL", "DIV", "LESS", "EQUAL",
    "OFFSET", "SWITCH", "SPAWN", "APPLY", "GET", "PUT",
];

/// The columns that the rules permit for a kind; everything else cannot occur.
///
/// Only END ends. Only TOUCH and the three fetches wait. Constants and SELF read nothing. TOUCH and STORE do not read their slot's
/// value, and LOAD takes any kind of it. FRAME's size is good in every image and SPAWN reads no slot, so only room is left to them.
/// LESS and EQUAL have an answer on all values that they take.
fn permitted(kind: usize) -> &'static [usize] {
    match kind {
        0x00 => &[1],
        0x01..=0x04 | 0x0F => &[0],
        0x05 => &[0, 2, 3, 4],
        0x06 => &[0, 3, 4, 5],
        0x07 => &[0, 3, 4, 7],
        0x08 | 0x09 => &[0, 3, 4, 5, 6, 8, 9],
        0x0A | 0x0C | 0x1A => &[0, 2, 3, 4, 5, 6],
        0x0B | 0x0D | 0x1B => &[0, 3, 4, 5, 6, 7],
        0x0E => &[0, 9],
        0x10..=0x13 => &[0, 3, 4, 5, 6, 11],
        0x14..=0x17 => &[0, 3, 4, 5, 6],
        0x18 => &[0, 10],
        _ => &[0, 3, 4, 5, 6, 10],
    }
}

impl Tally {
    /// Tells what is done next, in a replay.
    pub fn tell(&self, what: Arguments) {
        if self.aloud {
            println!("{what}");
        }
    }

    /// Counts an entry by its answer and, where it ran, by the instruction's kind and the refusal.
    pub fn entry(&mut self, answer: u8, kind: Option<u8>, refusal: u8) {
        self.entries += 1;
        self.answers[usize::from(answer)] += 1;
        if let (Some(kind), 0..=3) = (kind, answer) {
            self.ran += 1;
            let column = if answer == 3 {
                2 + usize::from(refusal)
            } else {
                usize::from(answer)
            };
            self.table[usize::from(kind)][column] += 1;
        }
    }

    pub fn call(&mut self, number: u64) {
        self.calls += 1;
        *self.numbers.entry(number).or_default() += 1;
    }

    /// The permitted pairs of kind and answer seen fewer times than this, and all forbidden ones that were seen.
    pub fn gaps(&self, least: u64) -> Vec<String> {
        let mut gaps = Vec::new();
        for (kind, row) in self.table.iter().enumerate() {
            for (column, seen) in row.iter().enumerate() {
                let permitted = permitted(kind).contains(&column);
                if permitted && *seen < least || !permitted && *seen > 0 {
                    gaps.push(format!("{} {}: {seen}", NAMES[kind], heading(column)));
                }
            }
        }
        gaps
    }

    /// The table of kinds and answers; a dash where the rules permit no such pair.
    pub fn table(&self) -> String {
        let mut text = format!("{:8}", "");
        (0..COLUMNS).for_each(|column| text += &format!("{:>8}", heading(column)));
        for (kind, row) in self.table.iter().enumerate() {
            text += &format!("\n{:8}", NAMES[kind]);
            for (column, seen) in row.iter().enumerate() {
                text += &match permitted(kind).contains(&column) || *seen > 0 {
                    true => format!("{seen:>8}"),
                    false => format!("{:>8}", "-"),
                };
            }
        }
        text += &format!("\ncalls by number: {:?}", self.numbers);
        text + &format!("\nentries by answer: {:?}", self.answers)
    }

    pub fn line(&self, seconds: f64) -> String {
        let counts = [
            (self.cases, "cases"),
            (self.machines, "machines"),
            (self.calls, "calls"),
            (self.images, "images"),
            (self.entries, "entries"),
            (self.ran, "ran an instruction"),
            (self.damaged, "damaged states"),
            (self.damaged_but_sound, "still sound"),
            (self.isolations, "isolations"),
            ((self.cases as f64 / seconds) as u64, "cases a second"),
        ];
        counts.map(|(count, of)| format!("{count} {of}")).join(", ")
    }
}

fn heading(column: usize) -> String {
    match column {
        0 => "ran on".into(),
        1 => "ended".into(),
        2 => "waits".into(),
        _ => format!("no. {}", column - 2),
    }
}
