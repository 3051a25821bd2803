//! Compares the token with the independent implementation on calls that a seed determines.
//!
//!     compare [--seed N] [--calls N] [--seconds N]     a sweep of names, then until one is reached
//!     compare [--seed N] --only CASE                   one case again
//!     compare [--seed N] --write-corpus DIRECTORY      seeds for the fuzz targets
//!
//! It ends with 1 at the first mismatch, which it prints, or if some class of calls that must occur
//! did not.

mod answered;
mod apart;
mod calls;
mod check;
mod corpus;
mod damage;
mod follow;
mod form;
mod gen_command;
mod gen_draft;
mod gen_holder;
mod gen_lent;
mod gen_name;
mod gen_response;
mod gen_table;
mod gen_write;
mod hashes;
mod must;
mod names;
mod nests;
mod outcome;
mod output;
mod properties;
mod registered;
mod report;
mod rng;
mod scene;
mod singles;
mod sweeps;
mod tlv;
mod traces;
mod withdrawals;
mod withdrawn;
mod writes;

use check::{Checked, Checker};
use rng::Rng;
use std::fmt::Display;
use std::path::PathBuf;
use std::process::exit;
use std::time::{Duration, Instant};

struct Options {
    seed: u64,
    calls: Option<u64>,
    time: Option<Duration>,
    only: Option<u64>,
    corpus: Option<PathBuf>,
}

/// How many calls are made where neither their number nor a time is given.
const CALLS: u64 = 1_000_000;

const USAGE: &str =
    "compare [--seed N] [--calls N] [--seconds N] [--only CASE] [--write-corpus DIRECTORY]";

fn usage() -> ! {
    eprintln!("{}", USAGE);
    exit(2)
}

fn options() -> Options {
    let mut options = Options {
        seed: 1,
        calls: None,
        time: None,
        only: None,
        corpus: None,
    };
    let mut words = std::env::args().skip(1);
    while let Some(word) = words.next() {
        let value = words.next().unwrap_or_else(|| usage());
        let number = || value.parse().unwrap_or_else(|_| usage());
        match word.as_str() {
            "--seed" => options.seed = number(),
            "--calls" => options.calls = Some(number()),
            "--seconds" => options.time = Some(Duration::from_secs(number())),
            "--only" => options.only = Some(number()),
            "--write-corpus" => options.corpus = Some(value.into()),
            _ => usage(),
        }
    }
    options
}

/// One case: a call with what follows from it, a whole afternoon, or a sweep.
fn case(checker: &mut Checker, seed: u64, case: u64) -> Checked<()> {
    let rng = &mut Rng::new(seed, case);
    checker.start(seed, case);
    match rng.weighed(&[
        840, 400, 20, 240, 100, 400, 10, 1, 1, 1, 1, 300, 60, 40, 200, 80, 1,
    ]) {
        0 => singles::command(rng, checker),
        1 => singles::damaged_command(rng, checker),
        2 => traces::afternoon(rng, checker),
        3 => singles::completion(rng, checker),
        4 => singles::damaged_completion(rng, checker),
        5 => singles::reading(rng, checker),
        6 => names::cut_and_joined(rng, checker),
        7 => sweeps::command(rng, checker),
        8 => sweeps::table(rng, checker),
        9 => sweeps::draft(rng, checker),
        10 => sweeps::response(rng, checker),
        11 => writes::writing(rng, checker),
        12 => writes::forms(rng, checker),
        13 => hashes::parted(rng, checker),
        14 => withdrawals::withdrawal(rng, checker),
        15 => withdrawals::damaged(rng, checker),
        _ => sweeps::withdrawal(rng, checker),
    }
}

/// What was compared; a mismatch is printed and ends the program.
fn agreed<T>(checked: Checked<T>, again: impl Display) -> T {
    checked.unwrap_or_else(|mismatch| {
        println!("MISMATCH: {}", mismatch.what);
        print!("{}", mismatch.call);
        println!("again by: compare {}", again);
        exit(1)
    })
}

fn case_or_exit(checker: &mut Checker, seed: u64, number: u64) {
    let again = format_args!("--seed {} --only {}", seed, number);
    agreed(case(checker, seed, number), again);
}

/// The names that no seed chooses. Their classes are not counted among those of the cases, which
/// must occur there too.
fn sweep_names() {
    let start = Instant::now();
    let mut checker = Checker::new();
    let swept = names::sweep(&mut Rng::new(0, 0), &mut checker);
    let names = agreed(swept, "--calls 0");
    println!(
        "names: {} names, {} calls in {:.1} s\n",
        names,
        checker.counts.calls,
        start.elapsed().as_secs_f64()
    );
}

/// Cases until enough calls were made or the time is over. Gives whether every class occurred.
fn compare(options: &Options) -> bool {
    sweep_names();
    let mut checker = Checker::new();
    let start = Instant::now();
    let in_time = || options.time.map_or(true, |time| start.elapsed() < time);
    let without_limit = if options.time.is_some() {
        u64::MAX
    } else {
        CALLS
    };
    let most = options.calls.unwrap_or(without_limit);
    let mut cases = 0;
    while checker.counts.calls < most && in_time() {
        case_or_exit(&mut checker, options.seed, cases);
        cases += 1;
    }
    let seconds = start.elapsed().as_secs_f64();
    let calls = checker.counts.calls;
    checker.counts.print();
    println!(
        "\nseed {}: {} cases, {} calls in {:.1} s, {:.0} calls/s",
        options.seed,
        cases,
        calls,
        seconds,
        calls as f64 / seconds
    );
    let missing = checker.counts.missing();
    for class in &missing {
        println!("never: {}", class);
    }
    if missing.is_empty() {
        println!("all calls agree, every class occurred");
    }
    missing.is_empty()
}

fn main() {
    let options = options();
    if let Some(directory) = &options.corpus {
        if let Err(error) = corpus::write(directory, options.seed) {
            eprintln!("{}: {}", directory.display(), error);
            exit(1);
        }
    } else if let Some(number) = options.only {
        let mut checker = Checker::new();
        case_or_exit(&mut checker, options.seed, number);
        checker.counts.print();
    } else if !compare(&options) {
        exit(1);
    }
}
