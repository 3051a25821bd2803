//! What document 01 says of every call and needs no second implementation. What it says of commands is
//! in `answered`, of withdrawals in `withdrawn`.

use crate::check::Read;
use crate::outcome::{number_at, status_of};
use crate::report::Counts;
use crate::tlv;
use std::ops::Range;
use uaf_token::raw::FieldNumbers;

pub const REFUSAL: &str = "a refusal changes no output and no number";
pub const KEPT: &str = "but for a draft and Deregister's OK the table is as it was";
pub const APPENDED: &str = "Register appends the one record";
pub const RAISED: &str = "Sign raises the one counter by 1";
pub const REMOVED: &str = "Deregister leaves the other records in their order";
pub const READ: &str = "what a command answers can be read, with its tag and status";
pub const READ_BACK: &str = "the signed stretch of a completed response is the draft";
pub const DRAFT_ALONE: &str = "a draft alone is no response";
pub const FIELDS: &str = "fields lie one after another inside the response";
pub const APART: &str = "other holders' calls change nothing for a holder";
pub const APART_WITHDRAWN: &str = "a withdrawal is answered alike in two afternoons";
pub const WITHDRAWN: &str = "a withdrawal takes the one record and leaves the rest";
pub const TAKEN_BACK: &str = "directly after a Register it gives the former table";
pub const STILL_TAKEN: &str = "strangers' calls since a Register do not hinder it";
pub const BY_TOKEN: &str = "a holder without an AppID meets its record";
pub const BY_BOTH: &str = "a holder with an AppID meets its record";
pub const OWN_ALONE: &str = "without handles a Sign goes by the holder's records alone";
pub const NEARLY: &str = "a record of nearly the holder's hash is not met";
pub const HASHED: &str = "a draft has the hash of the content";
pub const NOT_HASHED: &str = "content that is empty or missing is not hashed";
pub const NOTHING_LENT: &str = "a Deregister that is lent nothing right is answered";
pub const PARTED: &str = "a hash is the same wherever its bytes are parted";
pub const CUT: &str = "a name cut inside a letter is taken nowhere";
pub const JOINED: &str = "two names are taken as one";
pub const FIELDS_GIVEN: &str = "reading what is written gives the fields given";
pub const IN_ORDER: &str = "fields are written in the order of 001's tables";
pub const WRITTEN_SERVED: &str = "what is written is neither refused nor invalid";
pub const LONGEST: &str = "a command of 8,192 bytes is written";
pub const EXACT: &str = "a command is written into an output of its length";
pub const NOT_LOOKED_AT: &str = "a field that is not given is not looked at";
pub const GIVEN_EMPTY: &str = "a field that is given empty is written";
pub const OWN_FORM: &str = "what is written is its own form";
pub const ONE_FORM: &str = "order and skipped children change nothing in a form";
pub const LEAST_FORM: &str = "a form is its own form, and no command of it is shorter";
pub const SAME_EFFECT: &str = "a command and its form have the same effect";
pub const WRITTEN_FORM: &str = "a form is what is written of its fields";

pub const ALL: [&str; 36] = [
    REFUSAL,
    KEPT,
    APPENDED,
    RAISED,
    REMOVED,
    READ,
    READ_BACK,
    DRAFT_ALONE,
    FIELDS,
    APART,
    APART_WITHDRAWN,
    WITHDRAWN,
    TAKEN_BACK,
    STILL_TAKEN,
    BY_TOKEN,
    BY_BOTH,
    OWN_ALONE,
    NEARLY,
    HASHED,
    NOT_HASHED,
    NOTHING_LENT,
    PARTED,
    CUT,
    JOINED,
    FIELDS_GIVEN,
    IN_ORDER,
    WRITTEN_SERVED,
    LONGEST,
    EXACT,
    NOT_LOOKED_AT,
    GIVEN_EMPTY,
    OWN_FORM,
    ONE_FORM,
    LEAST_FORM,
    SAME_EFFECT,
    WRITTEN_FORM,
];

pub type Held = Result<(), String>;

pub fn held(counts: &mut Counts, property: &'static str, holds: bool) -> Held {
    counts.add_property(property);
    if holds {
        Ok(())
    } else {
        Err(format!("does not hold: {}", property))
    }
}

/// The fields stand one after another and the first is the status.
fn in_order(response: &[u8], fields: &FieldNumbers) -> bool {
    let mut end = 4;
    for i in 0..fields.count {
        let (place, length) = (fields.places[i], fields.lengths[i]);
        if place < end + 4 || place + length > response.len() {
            return false;
        }
        let tag = usize::from(number_at(response, place - 4));
        if tag != fields.tags[i] || usize::from(number_at(response, place - 2)) != length {
            return false;
        }
        end = place + length;
    }
    end == response.len() && fields.tags[0] == usize::from(tlv::STATUS_CODE)
}

/// The reader's two calls, on which both implementations agree.
pub fn of_reading(
    counts: &mut Counts,
    response: &[u8],
    part: Option<Range<usize>>,
    fields: Option<FieldNumbers>,
) -> Result<Option<Read>, String> {
    match (part, fields) {
        (None, None) => held(counts, REFUSAL, true).map(|()| None),
        (Some(part), Some(fields)) => {
            let right = in_order(response, &fields)
                && usize::from(number_at(response, 0)) == fields.tag
                && usize::from(status_of(response)) == fields.status;
            held(counts, FIELDS, right)?;
            Ok(Some(Read { part, fields }))
        }
        _ => Err("one of the reader's calls refuses, the other does not".into()),
    }
}
