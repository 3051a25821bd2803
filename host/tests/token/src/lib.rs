//! The token for tests in Rust: its eleven C entries as safe functions with the signatures and types
//! of `uaf_peer`, so that one can stand in for the other. `raw` has the forms that show what a call
//! leaves in the numbers lent to it; the writers of commands have no other.

mod entries;
pub mod raw;

use core::ops::Range;
pub use entries::HASH_SIZE;
pub use raw::{write_deregister, write_get_info, write_open_settings, write_register, write_sign};
use uaf_peer::{Answer, Field, Fields, Lent, Refusal, Served, MOST_FIELDS};

/// `UAF_RESPONSE` and `UAF_DRAFT`.
pub const RESPONSE: u32 = 0;
pub const DRAFT: u32 = 1;

/// The refusal of a number other than 0. Any but 1 to 7 is a fault of the token, and panics.
pub fn refusal_of(number: u32) -> Refusal {
    match number {
        1 => Refusal::Output,
        2 => Refusal::Table,
        3 => Refusal::Command,
        4 => Refusal::Lent,
        5 => Refusal::Bytes,
        6 => Refusal::Field,
        7 => Refusal::Withdrawal,
        _ => panic!("{} is no refusal", number),
    }
}

fn refused_or_done(number: u32) -> Result<(), Refusal> {
    if number == 0 {
        Ok(())
    } else {
        Err(refusal_of(number))
    }
}

pub fn command(
    command: &[u8],
    lent: &Lent,
    table: &[u8],
    response: &mut [u8],
    table_out: &mut [u8],
) -> Result<Served, Refusal> {
    let mut numbers = raw::CommandNumbers {
        answer: 0,
        response_length: 0,
        table_length: 0,
    };
    refused_or_done(raw::command(
        command,
        lent,
        table,
        response,
        table_out,
        &mut numbers,
    ))?;
    let answer = match numbers.answer {
        RESPONSE => Answer::Response(numbers.response_length),
        DRAFT => Answer::Draft(numbers.response_length),
        other => panic!("{} is neither a response nor a draft", other),
    };
    Ok(Served {
        answer,
        table_length: numbers.table_length,
    })
}

pub fn withdraw(
    mixed: &[u8],
    key_id: &[u8],
    table: &[u8],
    table_out: &mut [u8],
) -> Result<usize, Refusal> {
    let mut length = 0;
    refused_or_done(raw::withdraw(mixed, key_id, table, table_out, &mut length))?;
    Ok(length)
}

pub fn hash(first: &[u8], second: &[u8]) -> [u8; HASH_SIZE] {
    let mut hash = [0; HASH_SIZE];
    raw::hash(first, second, &mut hash);
    hash
}

pub fn complete(
    kind: u32,
    draft: &[u8],
    attestation: u32,
    signature: &[u8],
    certificate: &[u8],
    response: &mut [u8],
) -> Result<usize, Refusal> {
    let mut length = 0;
    refused_or_done(raw::complete(
        kind,
        draft,
        attestation,
        signature,
        certificate,
        response,
        &mut length,
    ))?;
    Ok(length)
}

pub fn signed_part(response: &[u8]) -> Result<Range<usize>, Refusal> {
    let mut part = raw::PartNumbers {
        place: 0,
        length: 0,
    };
    refused_or_done(raw::signed_part(response, &mut part))?;
    Ok(part.place..part.place + part.length)
}

pub fn read_fields(response: &[u8]) -> Result<Fields, Refusal> {
    let mut numbers = raw::FieldNumbers {
        tag: 0,
        status: 0,
        count: 0,
        tags: [0; MOST_FIELDS],
        places: [0; MOST_FIELDS],
        lengths: [0; MOST_FIELDS],
    };
    refused_or_done(raw::read_fields(response, &mut numbers))?;
    let mut fields = [Field::default(); MOST_FIELDS];
    for (i, field) in fields.iter_mut().enumerate() {
        *field = Field {
            tag: sixteen_bits(numbers.tags[i]),
            place: numbers.places[i],
            length: numbers.lengths[i],
        };
    }
    Ok(Fields {
        tag: sixteen_bits(numbers.tag),
        status: sixteen_bits(numbers.status),
        count: numbers.count,
        fields,
    })
}

fn sixteen_bits(number: usize) -> u16 {
    u16::try_from(number).expect("a tag or a status has 16 bits")
}
