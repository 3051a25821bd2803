//! The script of `crates/trace`, a program that obeys it by calling the token's entries, and what
//! it must print, which is what the independent implementation answers to the same calls.
//!
//!     trace write DIRECTORY     writes DIRECTORY/stdin and DIRECTORY/stdout
//!     trace check DIRECTORY     ends with 1 if what lies there is not what it would write

mod bytes;
mod call;
mod commands;
mod completions;
mod drafts;
mod forms;
mod hashes;
mod holders;
mod lent;
mod make;
mod names;
mod output;
mod readings;
mod refusals;
mod registrations;
mod script;
mod signatures;
mod withdrawals;
mod writings;

use script::Trace;
use std::path::Path;
use std::process::exit;
use std::{env, fs, io};

/// A part of the script.
pub type Section = fn(&mut Trace);

const COMMANDS: [Section; 12] = [
    commands::examples,
    commands::information,
    registrations::registrations,
    names::names,
    signatures::signatures,
    commands::removals,
    commands::open_settings,
    holders::holders,
    refusals::refusals,
    lent::lent,
    refusals::order,
    forms::chain,
];

fn trace() -> Trace {
    let mut t = Trace::default();
    for section in COMMANDS {
        section(&mut t);
    }
    completions::completions(&mut t);
    readings::readings(&mut t);
    forms::by_value(&mut t, &COMMANDS);
    forms::spoilt(&mut t);
    forms::mixed(&mut t);
    writings::writings(&mut t);
    hashes::hashes(&mut t);
    withdrawals::withdrawals(&mut t);
    t
}

/// The two files with their bytes.
fn files(t: &Trace) -> [(&'static str, String); 2] {
    let text = |lines: &[String]| lines.join("\n") + "\n";
    [("stdin", text(&t.script)), ("stdout", text(&t.expected))]
}

fn write(directory: &Path, t: &Trace) -> io::Result<bool> {
    for (name, text) in files(t) {
        fs::write(directory.join(name), text)?;
    }
    println!("trace: {} calls written", t.expected.len());
    Ok(true)
}

/// Gives whether both files are as they must be, and prints the first line that is not.
fn check(directory: &Path, t: &Trace) -> io::Result<bool> {
    for (name, text) in files(t) {
        let path = directory.join(name);
        let found = fs::read(&path)?;
        if found != text.as_bytes() {
            print_difference(&path, &String::from_utf8_lossy(&found), &text);
            return Ok(false);
        }
    }
    println!("trace: {} calls, as they must be", t.expected.len());
    Ok(true)
}

fn print_difference(path: &Path, found: &str, right: &str) {
    let (mut found, mut right) = (found.split('\n'), right.split('\n'));
    let mut number = 1;
    loop {
        match (found.next(), right.next()) {
            (Some(a), Some(b)) if a == b => number += 1,
            (a, b) => {
                println!("{}: line {} is not what it must be", path.display(), number);
                println!("  is      {}", a.unwrap_or("missing"));
                println!("  must be {}", b.unwrap_or("missing"));
                return;
            }
        }
    }
}

fn main() {
    let words: Vec<String> = env::args().skip(1).collect();
    let words: Vec<&str> = words.iter().map(String::as_str).collect();
    let done = match words[..] {
        ["write", directory] => write(Path::new(directory), &trace()),
        ["check", directory] => check(Path::new(directory), &trace()),
        _ => {
            eprintln!("trace write DIRECTORY | trace check DIRECTORY");
            exit(2);
        }
    };
    match done {
        Ok(true) => {}
        Ok(false) => exit(1),
        Err(error) => {
            eprintln!("{}: {}", words[1], error);
            exit(1);
        }
    }
}
