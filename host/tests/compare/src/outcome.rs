//! Which class an answer belongs to, by the first look that tells the classes apart.

use crate::check::Wrote;
use crate::report::{Outcome, OTHER};
use crate::tlv::{self, Kind};
use crate::{gen_draft, report};
use uaf_token::raw::FieldNumbers;

/// Where the mode stands in a draft.
const MODE: usize = 23;
const STATUS: usize = 8;
const STATUS_ALONE: usize = 10;

pub fn number_at(bytes: &[u8], place: usize) -> u16 {
    u16::from_le_bytes([bytes[place], bytes[place + 1]])
}

/// The name of the command that a response's outer tag answers.
pub fn answered(response: &[u8]) -> &'static str {
    if response.len() < 2 {
        return OTHER;
    }
    let tag = number_at(response, 0);
    let kind = Kind::ALL.iter().find(|kind| kind.response_tag() == tag);
    kind.map_or(OTHER, |&kind| report::name_of(kind))
}

/// The name of the command that these bytes are.
pub fn asked(command: &[u8]) -> &'static str {
    Kind::of(command).map_or(OTHER, report::name_of)
}

fn signed(draft: &[u8]) -> Outcome {
    if draft[MODE] == 0x02 {
        Outcome::SignedContent
    } else {
        Outcome::Signed
    }
}

/// The number of names in a list that was written.
fn names(response: &[u8]) -> usize {
    let mut place = STATUS_ALONE;
    let mut number = 0;
    while place < response.len() {
        place += 4 + usize::from(number_at(response, place + 2));
        number += 1;
    }
    number
}

pub fn status_of(response: &[u8]) -> u16 {
    number_at(response, STATUS)
}

pub fn of_command(answer: &Result<Wrote, u32>) -> Outcome {
    let wrote = match answer {
        Err(refusal) => return Outcome::Refusal(*refusal),
        Ok(wrote) => wrote,
    };
    let bytes = &wrote.response;
    if wrote.draft {
        return match number_at(bytes, 0) {
            tlv::KRD => Outcome::Registration,
            _ => signed(bytes),
        };
    }
    if bytes.len() == STATUS_ALONE {
        return Outcome::Status(status_of(bytes));
    }
    if number_at(bytes, 0) == Kind::GetInfo.response_tag() {
        return Outcome::Info;
    }
    Outcome::List(names(bytes))
}

pub fn of_completion(number: u32, kind: u32, draft: &[u8], attestation: u32) -> Outcome {
    if number != 0 {
        return Outcome::Refusal(number);
    }
    if kind == gen_draft::SIGN {
        return signed(draft);
    }
    if attestation == u32::from(tlv::BASIC_FULL) {
        Outcome::Full
    } else {
        Outcome::Surrogate
    }
}

pub fn of_fields(fields: &FieldNumbers) -> Outcome {
    let has = |tag: u16| fields.tags[..fields.count].contains(&usize::from(tag));
    if fields.count == 1 {
        return Outcome::Status(fields.status as u16);
    }
    if has(tlv::API_VERSION) {
        Outcome::Info
    } else if has(tlv::USERNAME) {
        Outcome::List(fields.count / 2)
    } else if has(tlv::CERT) {
        Outcome::Full
    } else if has(tlv::PUB_KEY) {
        Outcome::Surrogate
    } else if fields.lengths[5] == 0 {
        Outcome::Signed
    } else {
        Outcome::SignedContent
    }
}
