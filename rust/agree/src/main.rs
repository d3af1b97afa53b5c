//! `agree [--seed N] [--cases N | --seconds S | --case K] [--table]`: runs the model beside the proved machine.
use agree::case;
use agree::tally::Tally;
use std::panic::{catch_unwind, AssertUnwindSafe};
use std::process::ExitCode;
use std::time::Instant;

const SEED: u64 = 377;
/// About a minute of cases.
const CASES: u64 = 40_000;
/// How often each possible pair of kind and answer must be seen in a run of at least `CASES`.
const LEAST: u64 = 5;

#[derive(Default)]
struct Wish {
    seed: Option<u64>,
    cases: Option<u64>,
    seconds: Option<u64>,
    case: Option<u64>,
    table: bool,
}

fn wish() -> Option<Wish> {
    let mut wish = Wish::default();
    let mut words = std::env::args().skip(1);
    while let Some(word) = words.next() {
        if word == "--table" {
            wish.table = true;
            continue;
        }
        let place = match word.as_str() {
            "--seed" => &mut wish.seed,
            "--cases" => &mut wish.cases,
            "--seconds" => &mut wish.seconds,
            "--case" => &mut wish.case,
            _ => return None,
        };
        *place = Some(words.next()?.parse().ok()?);
    }
    Some(wish)
}

/// Runs the cases; the first difference ends them.
fn run(wish: &Wish, seed: u64, tally: &mut Tally) -> Result<(), String> {
    let began = Instant::now();
    let without = if wish.seconds.is_some() {
        u64::MAX
    } else {
        CASES
    };
    let end = wish.cases.unwrap_or(without);
    for number in wish.case.map_or(0..end, |case| case..case + 1) {
        let seconds = began.elapsed().as_secs_f64();
        if wish.seconds.is_some_and(|limit| seconds >= limit as f64) {
            break;
        }
        let panicked = |_| Err("the case came to a panic".to_string());
        let outcome = catch_unwind(AssertUnwindSafe(|| case(seed, number, tally)));
        outcome.unwrap_or_else(panicked).map_err(|difference| {
            format!("{difference}\na difference after {seconds:.1} seconds; replay with --seed {seed} --case {number}")
        })?;
    }
    if wish.table {
        println!("{}", tally.table());
    }
    println!("{}", tally.line(began.elapsed().as_secs_f64()));
    let gaps = tally.gaps(LEAST);
    match tally.cases >= CASES && !gaps.is_empty() {
        true => Err(format!(
            "seen too seldom, or where the rules permit none: {}",
            gaps.join(", ")
        )),
        false => Ok(()),
    }
}

fn main() -> ExitCode {
    let Some(wish) = wish() else {
        eprintln!("agree [--seed N] [--cases N | --seconds S | --case K] [--table]");
        return ExitCode::from(2);
    };
    let seed = wish.seed.unwrap_or(SEED);
    println!("seed {seed}");
    let mut tally = Tally::default();
    tally.aloud = wish.case.is_some();
    match run(&wish, seed, &mut tally) {
        Ok(()) => println!("no difference"),
        Err(difference) => {
            println!("{difference}");
            return ExitCode::FAILURE;
        }
    }
    ExitCode::SUCCESS
}
