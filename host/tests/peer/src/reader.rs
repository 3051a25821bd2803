//! The response reader: refusal 5 "unless some allowed inputs make a command or completion write
//! it".

use core::ops::Range;

use crate::draft::{is_krd, is_signed_data};
use crate::numbers::{limit, tag, Kind, Status, API, CONTENT_TYPE, INDEX, SCHEME};
use crate::table::KeyIds;
use crate::tlv::{Field, Limit, Row, Run, Sink};
use crate::Refusal;

/// The most fields that a response has: a status and eight pairs.
pub const MOST_FIELDS: usize = 17;

/// What a response says: its tag, its status, and its fields in order.
#[derive(Clone, PartialEq, Eq, Debug)]
pub struct Fields {
    /// The response tag.
    pub tag: u16,
    /// The status.
    pub status: u16,
    /// How many rows of `fields` are used; the others are default.
    pub count: usize,
    /// The TLVs that hold no other, the status among them.
    pub fields: [Field; MOST_FIELDS],
}

/// What a response says besides its fields.
#[derive(Clone, Copy, PartialEq, Eq, Debug)]
pub struct Heading {
    /// The response tag.
    pub tag: u16,
    /// The status.
    pub status: u16,
    /// How many fields there are.
    pub count: usize,
}

/// The fields that were met, while it is not known yet whether this is a response; in the least
/// room, as all of it is set anew in every call.
struct Met {
    tags: [u16; MOST_FIELDS],
    /// A field stands inside a TLV, so its place is not far beyond 16 bits.
    places: [u32; MOST_FIELDS],
    lengths: [u16; MOST_FIELDS],
    count: usize,
}

impl Met {
    fn new() -> Self {
        Met {
            tags: [0; MOST_FIELDS],
            places: [0; MOST_FIELDS],
            lengths: [0; MOST_FIELDS],
            count: 0,
        }
    }

    fn read(&mut self, response: &[u8]) -> Result<Heading, Refusal> {
        let read = read(response, self).ok_or(Refusal::Bytes)?;
        Ok(Heading {
            tag: read.kind.response_tag(),
            status: read.status,
            count: self.count,
        })
    }
}

impl Sink for Met {
    fn leaf(&mut self, field: Field) {
        let row = self.count;
        if row < MOST_FIELDS {
            self.tags[row] = field.tag;
            self.places[row] = field.place as u32;
            self.lengths[row] = field.length as u16;
            self.count += 1;
        }
    }
}

/// The place of the signed structure, KRD or SIGNED_DATA with its header; `0..0` where there is
/// none.
///
/// # Errors
///
/// [`Refusal::Bytes`] if this is no response.
pub fn signed_part(response: &[u8]) -> Result<Range<usize>, Refusal> {
    let read = read(response, &mut ()).ok_or(Refusal::Bytes)?;
    Ok(read.signed)
}

/// The response tag, the status and the fields.
///
/// # Errors
///
/// [`Refusal::Bytes`] if this is no response.
pub fn read_fields(response: &[u8]) -> Result<Fields, Refusal> {
    let mut met = Met::new();
    let Heading { tag, status, count } = met.read(response)?;
    let fields = core::array::from_fn(|row| Field {
        tag: met.tags[row],
        place: met.places[row] as usize,
        length: met.lengths[row].into(),
    });
    Ok(Fields {
        tag,
        status,
        count,
        fields,
    })
}

/// As [`read_fields`], but writes the fields' tags, places and lengths into three arrays, which are
/// left alone if this is no response.
///
/// # Errors
///
/// [`Refusal::Bytes`] if this is no response.
pub fn read_rows(
    response: &[u8],
    tags: &mut [usize; MOST_FIELDS],
    places: &mut [usize; MOST_FIELDS],
    lengths: &mut [usize; MOST_FIELDS],
) -> Result<Heading, Refusal> {
    let mut met = Met::new();
    let heading = met.read(response)?;
    *tags = met.tags.map(usize::from);
    *places = met.places.map(|place| place as usize);
    *lengths = met.lengths.map(usize::from);
    Ok(heading)
}

struct Read {
    kind: Kind,
    status: u16,
    signed: Range<usize>,
}

const STATUS: Row = Row(tag::STATUS_CODE, Limit::Exactly(2));
const SIGNATURE: Row = Row(tag::SIGNATURE, limit::SIGNATURE);
const CERTIFICATE: Row = Row(tag::CERT, limit::CERTIFICATE);

const INFO: [Row; 7] = [
    Row(tag::AUTHENTICATOR_INDEX, Limit::Exactly(1)),
    Row(tag::AAID, limit::AAID),
    Row(tag::METADATA, limit::METADATA),
    Row(
        tag::TC_DISPLAY_CONTENT_TYPE,
        Limit::Exactly(CONTENT_TYPE.len()),
    ),
    Row(tag::ASSERTION_SCHEME, Limit::Exactly(SCHEME.len())),
    Row(tag::ATTESTATION_TYPE, Limit::Exactly(2)),
    Row(tag::ATTESTATION_TYPE, Limit::Exactly(2)),
];

const PAIR: [Row; 2] = [
    Row(tag::USERNAME, limit::USERNAME),
    Row(tag::KEYHANDLE, limit::KEY_ID),
];

/// Nothing, if this is no response.
fn read(response: &[u8], sink: &mut impl Sink) -> Option<Read> {
    let mut outer = Run::new(response);
    let response = outer.next()?.ok()?;
    if !outer.is_empty() {
        return None;
    }
    let kind = Kind::of_response(response.tag)?;
    let mut run = response.inside();
    let status = u16::from_le_bytes(run.leaf(&STATUS, sink)?.try_into().ok()?);
    let signed = if run.is_empty() {
        lone_status(kind, status)?
    } else if status == Status::Ok as u16 {
        body(kind, run, sink)?
    } else {
        return None;
    };
    Some(Read {
        kind,
        status,
        signed,
    })
}

fn lone_status(kind: Kind, status: u16) -> Option<Range<usize>> {
    kind.lone_statuses()
        .iter()
        .any(|&lone| lone as u16 == status)
        .then_some(0..0)
}

/// What follows the status OK. Gives the place of the signed structure.
fn body(kind: Kind, run: Run, sink: &mut impl Sink) -> Option<Range<usize>> {
    match kind {
        Kind::GetInfo => info(run, sink),
        Kind::Register => registration(run, sink),
        Kind::Sign => match run.clone().next()?.ok()?.tag {
            tag::AUTHENTICATOR_ASSERTION => authentication(run, sink),
            _ => choice(run, sink),
        },
        Kind::Deregister | Kind::OpenSettings => None,
    }
}

fn info(mut run: Run, sink: &mut impl Sink) -> Option<Range<usize>> {
    let version = run.leaf(&Row(tag::API_VERSION, Limit::Exactly(1)), sink)?;
    let info = run.sole(tag::AUTHENTICATOR_INFO)?;
    let [index, _, _, content_type, scheme, full, surrogate] = info.leaves(&INFO, sink)?;
    let fixed = version == API
        && index == INDEX
        && content_type == CONTENT_TYPE
        && scheme == SCHEME
        && full == tag::BASIC_FULL.to_le_bytes()
        && surrogate == tag::BASIC_SURROGATE.to_le_bytes();
    fixed.then_some(0..0)
}

/// Several records: 2 to 8 pairs. KeyIDs differ, as "no KeyID twice" is in a table; names may not.
fn choice(mut run: Run, sink: &mut impl Sink) -> Option<Range<usize>> {
    let mut seen = KeyIds::new();
    while !run.is_empty() {
        let pair = run.tagged(tag::USERNAME_AND_KEYHANDLE)?.inside();
        let [_, key_id] = pair.leaves(&PAIR, sink)?;
        let key_id = key_id.try_into().ok()?;
        if seen.contains(key_id) {
            return None;
        }
        seen.push(key_id)?;
    }
    (seen.count() >= 2).then_some(0..0)
}

fn registration(run: Run, sink: &mut impl Sink) -> Option<Range<usize>> {
    let mut parts = run
        .sole(tag::AUTHENTICATOR_ASSERTION)?
        .sole(tag::REG_ASSERTION)?;
    let start = parts.place();
    if !is_krd(parts.tagged(tag::KRD)?.inside(), sink) {
        return None;
    }
    let signed = start..parts.place();
    let attestation = parts.next()?.ok()?;
    match attestation.tag {
        tag::BASIC_FULL => {
            attestation
                .inside()
                .leaves(&[SIGNATURE, CERTIFICATE], sink)?;
        }
        tag::BASIC_SURROGATE => {
            attestation.inside().leaves(&[SIGNATURE], sink)?;
        }
        _ => return None,
    }
    parts.is_empty().then_some(signed)
}

fn authentication(run: Run, sink: &mut impl Sink) -> Option<Range<usize>> {
    let mut parts = run
        .sole(tag::AUTHENTICATOR_ASSERTION)?
        .sole(tag::AUTH_ASSERTION)?;
    let start = parts.place();
    if !is_signed_data(parts.tagged(tag::SIGNED_DATA)?.inside(), sink) {
        return None;
    }
    let signed = start..parts.place();
    parts.leaves(&[SIGNATURE], sink)?;
    Some(signed)
}
