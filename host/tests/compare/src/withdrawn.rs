//! What the answer to a withdrawal must be, by what it is lent and the two tables, without a second
//! implementation.

use crate::calls::{WithdrawCall, LEAST_TABLE};
use crate::gen_table::{decode, Record};
use crate::properties::{held, Held, REFUSAL, WITHDRAWN};
use crate::report::{Counts, Entry, Outcome};

/// Where a withdrawal ends before any record is looked for.
pub const NOT_LOOKED_FOR: &str = "not looked for";
/// What it finds: a reason for refusal 7, two of them at once, or the record that goes.
const NO_RECORD: &str = "no record";
const COUNTED: &str = "counted";
const OLDER: &str = "older";
const COUNTED_OLDER: &str = "counted, older";
pub const NEWEST: &str = "newest";

/// What refusal 7 is for.
pub const REASONS: [&str; 4] = [NO_RECORD, COUNTED, OLDER, COUNTED_OLDER];

/// The place of the record with both values, if there is one.
fn place_of(call: &WithdrawCall, records: &[Record]) -> Option<usize> {
    let has_both = |record: &Record| {
        record.mixed[..] == call.mixed[..] && record.key_id[..] == call.key_id[..]
    };
    records.iter().position(has_both)
}

/// What a withdrawal from these records finds, reason by reason.
fn found(call: &WithdrawCall, records: &[Record]) -> &'static str {
    let place = match place_of(call, records) {
        None => return NO_RECORD,
        Some(place) => place,
    };
    let later = &records[place + 1..];
    let older = later
        .iter()
        .any(|record| record.mixed == records[place].mixed);
    match (records[place].counter != 0, older) {
        (true, true) => COUNTED_OLDER,
        (true, false) => COUNTED,
        (false, true) => OLDER,
        (false, false) => NEWEST,
    }
}

/// The records but for the one at this place.
fn without(records: &[Record], place: usize) -> Vec<Record> {
    [&records[..place], &records[place + 1..]].concat()
}

/// Whether nothing that is lent is wrong but perhaps the table.
fn is_lent(call: &WithdrawCall) -> bool {
    call.table_out_size >= LEAST_TABLE && call.mixed.len() == 32 && call.key_id.len() == 32
}

/// Counts the class of a withdrawal's answer, of which both implementations agree, and looks at it.
pub fn of_withdrawal(
    counts: &mut Counts,
    call: &WithdrawCall,
    answer: &Result<Vec<u8>, u32>,
) -> Held {
    let outcome = match answer {
        Ok(_) => Outcome::Withdrawn,
        Err(refusal) => Outcome::Refusal(*refusal),
    };
    let looked_for = matches!(answer, Ok(_) | Err(7));
    // Such a table has been taken.
    let records = looked_for.then(|| decode(&call.table));
    let found = records
        .as_ref()
        .map_or(NOT_LOOKED_FOR, |records| found(call, records));
    counts.add(Entry::Withdraw, found, outcome);
    let right = match answer {
        Err(1) => call.table_out_size < LEAST_TABLE,
        Err(2) => call.table_out_size >= LEAST_TABLE,
        Err(4) => call.mixed.len() != 32 || call.key_id.len() != 32,
        Err(7) => is_lent(call) && found != NEWEST,
        Err(_) => false,
        Ok(_) => is_lent(call) && found == NEWEST,
    };
    if !right {
        return Err(format!(
            "{:?} to a withdrawal that finds: {}",
            outcome, found
        ));
    }
    match (answer, records) {
        (Ok(left), Some(records)) => {
            let rest = place_of(call, &records).map(|place| without(&records, place));
            held(counts, WITHDRAWN, rest == Some(decode(left)))
        }
        _ => held(counts, REFUSAL, true),
    }
}
