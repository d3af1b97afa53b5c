//! Times the proved machine against the tuned model and prints tables for docs/SPEED.md.
//!
//!     bench [--quick] [--only NAME] [--rounds N]
//!
//! For `count/count`, which counts instructions: the cases as files, and N entries of a case on the tuned model alone.
//!
//!     bench --cases FOLDER
//!     bench --tuned NAME N
mod both;
mod calls;
mod case;
mod clock;
mod count;
mod scene;
mod sheets;
mod steps;

use case::Case;
use std::env;

/// What the command line asks for.
struct Wish {
    only: Option<String>,
    rounds: usize,
}

fn wish(words: &[&str]) -> Option<Wish> {
    let mut wish = Wish {
        only: None,
        rounds: 301,
    };
    let mut words = words.iter();
    while let Some(word) = words.next() {
        match *word {
            "--quick" => wish.rounds = 31,
            "--only" => wish.only = Some(words.next()?.to_string()),
            "--rounds" => wish.rounds = words.next()?.parse().ok().filter(|n| *n > 0)?,
            _ => return None,
        }
    }
    Some(wish)
}

impl Wish {
    fn wants(&self, name: &str) -> bool {
        self.only.as_deref().is_none_or(|only| only == name)
    }
}

/// A table of the cases wished for, under its heading, each time in nanoseconds over `unit`.
fn table(heading: &str, cases: &[Case], wish: &Wish, unit: f64) {
    let wanted: Vec<&Case> = cases.iter().filter(|case| wish.wants(case.name)).collect();
    if wanted.is_empty() {
        return;
    }
    println!("{heading}\n|---|---|---|---|---|");
    for case in wanted {
        let times = case.work().measure(wish.rounds);
        let (proved, tuned) = (times.proved / unit, times.tuned / unit);
        let (name, says, ratio) = (case.name, case.says, times.ratio());
        println!("| {name} | {says} | {proved:.2} | {tuned:.2} | {ratio:.1} |");
    }
    println!();
}

const STEPS: &str = "\
| entries | what runs | proved, ns an entry | tuned, ns an entry | ratio |";

const CALLS: &str = "\
A call of the proved machine tests the caller's memory; the tuned one has nothing to test.

| call | on what | proved, us | tuned, us | ratio |";

fn tables(wish: &Wish) {
    table(STEPS, &steps::CASES, wish, 1.0);
    table(CALLS, &calls::CASES, wish, 1_000.0);
}

const USAGE: &str = "\
bench [--quick] [--only NAME] [--rounds N]
bench --cases FOLDER
bench --tuned NAME N";

fn main() {
    let words: Vec<String> = env::args().skip(1).collect();
    let words: Vec<&str> = words.iter().map(String::as_str).collect();
    let done = match words[..] {
        ["--cases", folder] => Some(count::write_cases(folder).expect("a folder to write to")),
        ["--tuned", name, entries] => count::run_tuned(name, entries),
        _ => wish(&words).map(|wish| tables(&wish)),
    };
    if done.is_none() {
        eprintln!("{USAGE}");
        std::process::exit(2);
    }
}
