//! How often each class of calls occurred.

use crate::must;
use crate::properties;
use crate::tlv::Kind;
use std::collections::BTreeMap;
use std::fmt::{self, Display, Formatter};

#[derive(Clone, Copy, PartialEq, Eq, PartialOrd, Ord, Debug)]
pub enum Entry {
    Command,
    Withdraw,
    Complete,
    SignedPart,
    ReadFields,
    Write,
    Hash,
}

/// What a call answered.
#[derive(Clone, Copy, PartialEq, Eq, PartialOrd, Ord, Debug)]
pub enum Outcome {
    Refusal(u32),
    /// A status alone.
    Status(u16),
    Info,
    /// Sign's list of so many names.
    List(usize),
    /// A draft, or the response made of one.
    Registration,
    Full,
    Surrogate,
    Signed,
    SignedContent,
    /// The reader's first call: with and without a signed structure.
    Part,
    NoPart,
    /// A command.
    Written,
    Hash,
    /// A record is gone.
    Withdrawn,
}

/// The entry, what it was given and what it answered.
#[derive(Clone, Copy, PartialEq, Eq, PartialOrd, Ord, Debug)]
pub struct Class {
    pub entry: Entry,
    pub subject: &'static str,
    pub outcome: Outcome,
}

impl Display for Entry {
    fn fmt(&self, f: &mut Formatter) -> fmt::Result {
        f.pad(match self {
            Entry::Command => "uaf_command",
            Entry::Withdraw => "uaf_withdraw",
            Entry::Complete => "uaf_complete",
            Entry::SignedPart => "uaf_signed_part",
            Entry::ReadFields => "uaf_read_fields",
            Entry::Write => "uaf_write_*",
            Entry::Hash => "uaf_hash",
        })
    }
}

impl Display for Outcome {
    fn fmt(&self, f: &mut Formatter) -> fmt::Result {
        let text = match self {
            Outcome::Refusal(number) => format!("refusal {}", number),
            Outcome::Status(number) => format!("status {:#04X}", number),
            Outcome::Info => "information".into(),
            Outcome::List(number) => format!("list of {}", number),
            Outcome::Registration => "registration".into(),
            Outcome::Full => "registration, full".into(),
            Outcome::Surrogate => "registration, surrogate".into(),
            Outcome::Signed => "sign, mode 0x01".into(),
            Outcome::SignedContent => "sign, mode 0x02".into(),
            Outcome::Part => "signed structure".into(),
            Outcome::NoPart => "no signed structure".into(),
            Outcome::Written => "command".into(),
            Outcome::Hash => "hash".into(),
            Outcome::Withdrawn => "withdrawn".into(),
        };
        f.pad(&text)
    }
}

pub const OTHER: &str = "other bytes";

pub fn name_of(kind: Kind) -> &'static str {
    match kind {
        Kind::GetInfo => "GetInfo",
        Kind::Register => "Register",
        Kind::Sign => "Sign",
        Kind::Deregister => "Deregister",
        Kind::OpenSettings => "Open settings",
    }
}

/// The kinds of completion.
pub fn completion_name(kind: u32) -> &'static str {
    match kind {
        0 => "kind 0",
        1 => "kind 1",
        _ => "other kind",
    }
}

/// Which of the two stretches of a hash have any bytes.
pub const STRETCHES: [&str; 4] = ["nothing", "first alone", "second alone", "two stretches"];

#[derive(Default)]
pub struct Counts {
    classes: BTreeMap<Class, u64>,
    faults: BTreeMap<&'static str, u64>,
    properties: BTreeMap<&'static str, u64>,
    pub calls: u64,
}

impl Counts {
    pub fn add(&mut self, entry: Entry, subject: &'static str, outcome: Outcome) {
        let class = Class {
            entry,
            subject,
            outcome,
        };
        *self.classes.entry(class).or_insert(0) += 1;
        self.calls += 1;
    }

    /// A call whose only fault is this one, and which was answered as that fault must be.
    pub fn add_fault(&mut self, fault: &'static str) {
        *self.faults.entry(fault).or_insert(0) += 1;
    }

    /// A property that was looked at without the other implementation.
    pub fn add_property(&mut self, property: &'static str) {
        *self.properties.entry(property).or_insert(0) += 1;
    }

    pub fn print(&self) {
        println!(
            "{:<17}{:<15}{:<25}{:>12}",
            "entry", "given", "answer", "calls"
        );
        for (class, number) in &self.classes {
            println!(
                "{:<17}{:<15}{:<25}{:>12}",
                class.entry, class.subject, class.outcome, number
            );
        }
        println!(
            "\n{:<57}{:>12}",
            "calls with this fault alone, answered as it must be", "calls"
        );
        for (fault, number) in &self.faults {
            println!("{:<57}{:>12}", fault, number);
        }
        println!(
            "\n{:<57}{:>12}",
            "properties that need no other implementation", "times"
        );
        for (property, number) in &self.properties {
            println!("{:<57}{:>12}", property, number);
        }
    }

    /// What must occur and did not.
    pub fn missing(&self) -> Vec<String> {
        let mut missing = Vec::new();
        for class in must::classes() {
            if !self.classes.contains_key(&class) {
                missing.push(format!(
                    "{} {} {}",
                    class.entry, class.subject, class.outcome
                ));
            }
        }
        for fault in must::FAULTS {
            if !self.faults.contains_key(fault) {
                missing.push(fault.to_string());
            }
        }
        for property in properties::ALL {
            if !self.properties.contains_key(property) {
                missing.push(property.to_string());
            }
        }
        missing
    }
}
