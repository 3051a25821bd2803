//! The five commands on a stored table.

use crate::draft::{write_krd, write_signed_data};
use crate::lent::{Call, Registering, RightProfile, Signing};
use crate::numbers::{
    tag, Attestation, Bytes32, Kind, Status, API, CONTENT_TYPE, INDEX, LEAST_RESPONSE, LEAST_TABLE,
    MOST_OWN, MOST_RECORDS, SCHEME,
};
use crate::params::Params;
use crate::sha256::hash;
use crate::table::{Record, Table};
use crate::tlv::Writer;
use crate::{Answer, Lent, Refusal, Served};

/// Runs a command on a stored table. `response` gets the response or the draft, `table_out` the
/// stored form of the table left.
///
/// # Errors
///
/// The first that applies of [`Refusal::Output`], [`Refusal::Table`], [`Refusal::Command`] and
/// [`Refusal::Lent`].
pub fn command(
    command: &[u8],
    lent: &Lent,
    table: &[u8],
    response: &mut [u8],
    table_out: &mut [u8],
) -> Result<Served, Refusal> {
    if response.len() < LEAST_RESPONSE || table_out.len() < LEAST_TABLE {
        return Err(Refusal::Output);
    }
    let stored = table;
    let mut table = Table::new();
    table.read(stored).ok_or(Refusal::Table)?;
    let kind = Kind::of_command(command).ok_or(Refusal::Command)?;
    let call = Call::of(kind, lent).ok_or(Refusal::Lent)?;

    let mut outputs = Outputs {
        answer: Writer::new(response),
        table: Writer::new(table_out),
    };
    let written = serve(&call, command, &table, &mut outputs).unwrap_or_else(|status| {
        // "a status other than OK leaves the table unchanged". Nothing was written so far; the
        // compiler is told so, as then it knows where each byte goes.
        outputs.answer.restart();
        outputs.table.restart();
        write_response(kind, status, |_| {}, &mut outputs.answer);
        table.write(&mut outputs.table);
        Written::Response
    });
    let length = outputs.answer.length();
    Ok(Served {
        answer: match written {
            Written::Response => Answer::Response(length),
            Written::Draft => Answer::Draft(length),
        },
        table_length: outputs.table.length(),
    })
}

struct Outputs<'a> {
    answer: Writer<'a>,
    table: Writer<'a>,
}

enum Written {
    Response,
    Draft,
}

/// Writes both outputs, or gives the status that is to be answered alone and has written nothing.
fn serve(call: &Call, command: &[u8], table: &Table, out: &mut Outputs) -> Result<Written, Status> {
    let mut params = Params::new();
    let read = params.read(call.kind(), command);
    read.ok_or(Status::ParamsInvalid)?;
    match call {
        Call::GetInfo(profile) => Ok(get_info(profile, table, out)),
        Call::Register(lent) => register(lent, &params, table, out),
        Call::Sign(lent) => sign(lent, &params, table, out),
        Call::Deregister => deregister(&params, table, out),
        Call::OpenSettings => Err(Status::CmdNotSupported),
    }
}

/// The mixed token of a command: the hash of "access token followed by AppID". "A missing AppID adds
/// no bytes."
///
/// It is worked out where records are looked at for it, so not for a status that is decided before.
fn mixed_token(params: &Params) -> Bytes32 {
    let token = params.value(tag::KEYHANDLE_ACCESS_TOKEN);
    hash(token, params.value(tag::APPID))
}

/// A response: its status, then what `body` writes.
pub(crate) fn write_response(
    kind: Kind,
    status: Status,
    body: impl FnOnce(&mut Writer),
    out: &mut Writer,
) {
    out.wrap(kind.response_tag(), |out| {
        out.tlv(tag::STATUS_CODE, &status.bytes());
        body(out);
    });
}

fn get_info(profile: &RightProfile, table: &Table, out: &mut Outputs) -> Written {
    let info = |out: &mut Writer| {
        out.tlv(tag::API_VERSION, &API);
        out.wrap(tag::AUTHENTICATOR_INFO, |out| {
            out.tlv(tag::AUTHENTICATOR_INDEX, &INDEX);
            out.tlv(tag::AAID, profile.aaid);
            out.tlv(tag::METADATA, profile.metadata);
            out.tlv(tag::TC_DISPLAY_CONTENT_TYPE, CONTENT_TYPE);
            out.tlv(tag::ASSERTION_SCHEME, SCHEME);
            out.tlv(tag::ATTESTATION_TYPE, &tag::BASIC_FULL.to_le_bytes());
            out.tlv(tag::ATTESTATION_TYPE, &tag::BASIC_SURROGATE.to_le_bytes());
        });
    };
    write_response(Kind::GetInfo, Status::Ok, info, &mut out.answer);
    table.write(&mut out.table);
    Written::Response
}

fn register(
    lent: &Registering,
    params: &Params,
    table: &Table,
    out: &mut Outputs,
) -> Result<Written, Status> {
    lent.verdict?;
    let attestation = match *params.value(tag::ATTESTATION_TYPE) {
        [low, high] => Attestation::of(u16::from_le_bytes([low, high]).into()),
        _ => None,
    };
    if attestation.is_none() {
        return Err(Status::AttestationNotSupported);
    }
    if table.has_key_id(lent.key_id) {
        return Err(Status::ErrUnknown);
    }
    // "at 8 own records or 32 in all"; for the latter it doesn't matter whose they are.
    if table.count() >= MOST_RECORDS {
        return Err(Status::InsufficientResources);
    }
    let mixed = mixed_token(params);
    if table.count_own(&mixed) >= MOST_OWN {
        return Err(Status::InsufficientResources);
    }
    let challenge = params.value(tag::FINAL_CHALLENGE_HASH);
    let username = params.value(tag::USERNAME);
    write_krd(lent, challenge, &mut out.answer);
    table.write_with(lent.key_id, &mixed, username, &mut out.table);
    Ok(Written::Draft)
}

fn sign(
    lent: &Signing,
    params: &Params,
    table: &Table,
    out: &mut Outputs,
) -> Result<Written, Status> {
    lent.verdict?;
    // "records with the [...] mixed token and, if key handles are given, a KeyID among them"
    let mixed = mixed_token(params);
    let handles = params.handles();
    let chosen = table
        .own(&mixed)
        .filter(|record| handles.count() == 0 || handles.contains(record.key_id));
    let mut first = chosen.clone();
    match (first.next(), first.next()) {
        (None, _) => Err(Status::AccessDenied),
        (Some(record), None) => sign_with(&record, lent, params, table, out),
        (Some(_), Some(_)) => Ok(offer(chosen, table, out)),
    }
}

/// A tie: neither signs until one is chosen, and no counter moves.
fn offer<'a>(
    chosen: impl Iterator<Item = Record<'a>>,
    table: &Table,
    out: &mut Outputs,
) -> Written {
    let pairs = |out: &mut Writer| {
        for record in chosen {
            out.wrap(tag::USERNAME_AND_KEYHANDLE, |out| {
                out.tlv(tag::USERNAME, record.username());
                out.tlv(tag::KEYHANDLE, record.key_id);
            });
        }
    };
    write_response(Kind::Sign, Status::Ok, pairs, &mut out.answer);
    table.write(&mut out.table);
    Written::Response
}

/// A clear winner: display before counter. Empty content is none.
fn sign_with(
    record: &Record,
    lent: &Signing,
    params: &Params,
    table: &Table,
    out: &mut Outputs,
) -> Result<Written, Status> {
    let content = params.value(tag::TRANSACTION_CONTENT);
    if !content.is_empty() {
        lent.display?;
    }
    let counter = record.counter().checked_add(1).ok_or(Status::ErrUnknown)?;
    let challenge = params.value(tag::FINAL_CHALLENGE_HASH);
    write_signed_data(
        lent,
        challenge,
        content,
        record.key_id,
        counter,
        &mut out.answer,
    );
    table.write_counted(record, counter, &mut out.table);
    Ok(Written::Draft)
}

/// A stranger's KeyID and an unknown one are answered alike.
fn deregister(params: &Params, table: &Table, out: &mut Outputs) -> Result<Written, Status> {
    let mixed = mixed_token(params);
    // Empty for all of them, else of 32 bytes.
    let key_id: Option<&Bytes32> = params.value(tag::KEYID).try_into().ok();
    let gone = |record: &Record| {
        *record.mixed == mixed && key_id.map_or(true, |key_id| record.key_id == key_id)
    };
    if key_id.is_some() && !table.records().any(|record| gone(&record)) {
        return Err(Status::AccessDenied);
    }
    write_response(Kind::Deregister, Status::Ok, |_| {}, &mut out.answer);
    table.write_without(table.records().filter(gone), &mut out.table);
    Ok(Written::Response)
}
