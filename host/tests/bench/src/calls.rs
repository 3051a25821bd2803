//! A call of one of the entries, with all that it is lent.

use crate::data::{noise, ACCESS_TOKEN, APP_ID, CHALLENGE};
use crate::entries::{mbedtls, Digest, Entries, Row, MOST_FIELDS};
use crate::placed::{Placed, Role};

pub const LEAST_RESPONSE: usize = 4096;
pub const LEAST_TABLE: usize = 6912;
pub const MOST_COMMAND: usize = 8192;

pub enum Call {
    Command(Command),
    Withdraw(Withdraw),
    Complete(Complete),
    SignedPart(Placed),
    ReadFields(Placed),
    Write(Write),
    Hash(Hash),
}

pub struct Command {
    pub command: Placed,
    pub key_id: Placed,
    pub table: Placed,
    /// How much of the table output is lent.
    pub room: usize,
}

pub struct Withdraw {
    pub mixed: Placed,
    pub key_id: Placed,
    pub table: Placed,
    /// How much of the table output is lent.
    pub room: usize,
}

pub struct Complete {
    pub kind: u32,
    pub draft: Placed,
    pub attestation: u32,
    pub certificate: Placed,
}

pub struct Write {
    pub what: Written,
    /// How much of the command output is lent.
    pub room: usize,
}

/// A command, with the fields that are not alike in all.
pub enum Written {
    GetInfo,
    Register {
        username: Placed,
    },
    Sign {
        content: Option<Placed>,
        handles: Placed,
        handle_sizes: Vec<usize>,
    },
    Deregister {
        key_id: Placed,
    },
    OpenSettings,
}

/// Two stretches, either of which may be empty.
pub struct Hash {
    pub first: Placed,
    pub second: Placed,
    /// Both run together, as mbedTLS is given them: it is spared the second stretch.
    pub joined: Placed,
}

/// Whether a field is given to a writer.
const NOT_GIVEN: u32 = 0;
const GIVEN: u32 = 1;
/// The attestation type of a Register.
const FULL: u32 = 0x3E07;
/// What is lent for a field that is not given.
const NOTHING: &[u8] = &[];

impl Call {
    /// Moves what it is lent to its place in a round.
    pub fn settle(&mut self, round: usize) {
        let lent = match self {
            Call::Command(call) => vec![&mut call.command, &mut call.key_id, &mut call.table],
            Call::Withdraw(call) => vec![&mut call.mixed, &mut call.key_id, &mut call.table],
            Call::Complete(call) => vec![&mut call.draft, &mut call.certificate],
            Call::SignedPart(response) | Call::ReadFields(response) => vec![response],
            Call::Write(call) => match &mut call.what {
                Written::Register { username } => vec![username],
                Written::Sign {
                    content, handles, ..
                } => content.iter_mut().chain([handles]).collect(),
                Written::Deregister { key_id } => vec![key_id],
                Written::GetInfo | Written::OpenSettings => Vec::new(),
            },
            Call::Hash(call) => vec![&mut call.first, &mut call.second, &mut call.joined],
        };
        for placed in lent {
            placed.settle(round);
        }
    }
}

/// What every call is lent alike.
pub struct Desk {
    aaid: Vec<u8>,
    version: u32,
    signature_algorithm: u32,
    key_algorithm: u32,
    metadata: Vec<u8>,
    public_key: Vec<u8>,
    nonce: Vec<u8>,
    signature: Vec<u8>,
}

impl Desk {
    pub fn new() -> Self {
        Desk {
            aaid: b"4A4F#0001".to_vec(),
            version: 1,
            signature_algorithm: 2,
            key_algorithm: 0x101,
            metadata: noise(15, 1),
            public_key: noise(91, 2),
            nonce: noise(16, 3),
            signature: noise(71, 5),
        }
    }
}

/// Whatever a call can write.
#[derive(PartialEq)]
pub struct Outputs {
    pub response: Placed,
    pub table: Placed,
    pub command: Placed,
    pub command_length: usize,
    answer: u32,
    pub response_length: usize,
    pub table_length: usize,
    place: usize,
    part_length: usize,
    tag: usize,
    status: usize,
    count: usize,
    tags: Row,
    places: Row,
    lengths: Row,
    hash: Digest,
}

/// What outputs hold before a call, so that what it leaves alone is seen too.
const BEFORE: usize = 0xA5;

impl Outputs {
    pub fn new() -> Self {
        Outputs {
            response: Placed::new(&[BEFORE as u8; LEAST_RESPONSE], Role::ResponseOut),
            table: Placed::new(&[BEFORE as u8; LEAST_TABLE], Role::TableOut),
            command: Placed::new(&[BEFORE as u8; MOST_COMMAND], Role::CommandOut),
            command_length: BEFORE,
            answer: BEFORE as u32,
            response_length: BEFORE,
            table_length: BEFORE,
            place: BEFORE,
            part_length: BEFORE,
            tag: BEFORE,
            status: BEFORE,
            count: BEFORE,
            tags: [BEFORE; MOST_FIELDS],
            places: [BEFORE; MOST_FIELDS],
            lengths: [BEFORE; MOST_FIELDS],
            hash: [BEFORE as u8; 32],
        }
    }

    /// Where a copy of what goes through a call is written: into its own outputs, and for the reader into a response's.
    pub fn of(&mut self, call: &Call) -> Vec<&mut Placed> {
        match call {
            Call::Write(_) => vec![&mut self.command],
            Call::Withdraw(_) => vec![&mut self.table],
            _ => vec![&mut self.response, &mut self.table],
        }
    }

    /// Moves them to their places in a round.
    pub fn settle(&mut self, round: usize) {
        for placed in [&mut self.response, &mut self.table, &mut self.command] {
            placed.settle(round);
        }
    }
}

/// Makes a call so many times; gives what the last one gave, 0 or the number of a refusal.
#[inline(never)]
pub fn repeat(entries: &Entries, desk: &Desk, call: &Call, out: &mut Outputs, times: u32) -> u32 {
    match call {
        Call::Command(call) => commands(entries, desk, call, out, times),
        Call::Withdraw(call) => withdrawals(entries, call, out, times),
        Call::Complete(call) => completions(entries, desk, call, out, times),
        Call::SignedPart(response) => {
            let (at, size) = (response.as_ptr(), response.len());
            // Safety: as in `commands`.
            again(times, || unsafe {
                (entries.signed_part)(at, size, &mut out.place, &mut out.part_length)
            })
        }
        Call::ReadFields(response) => {
            let (at, size) = (response.as_ptr(), response.len());
            // Safety: as in `commands`.
            again(times, || unsafe {
                (entries.read_fields)(
                    at,
                    size,
                    &mut out.tag,
                    &mut out.status,
                    &mut out.count,
                    &mut out.tags,
                    &mut out.places,
                    &mut out.lengths,
                )
            })
        }
        Call::Write(call) => writings(entries, call, out, times),
        Call::Hash(call) => hashes(entries, call, out, times),
    }
}

/// Makes a call so many times with mbedTLS, where it has one for it.
#[inline(never)]
pub fn repeat_mbedtls(call: &Call, out: &mut Outputs, times: u32) -> Option<u32> {
    match call {
        Call::Hash(call) => Some(mbedtls_hashes(call, out, times)),
        _ => None,
    }
}

fn commands(entries: &Entries, desk: &Desk, call: &Command, out: &mut Outputs, times: u32) -> u32 {
    let (response, response_size) = (out.response.as_mut_ptr(), out.response.len());
    let table_out = out.table[..call.room].as_mut_ptr();
    // Safety: every pointer goes with the length of what it points to, and no output overlaps anything else that is lent.
    again(times, || unsafe {
        (entries.command)(
            call.command.as_ptr(),
            call.command.len(),
            desk.aaid.as_ptr(),
            desk.aaid.len(),
            desk.version,
            desk.signature_algorithm,
            desk.key_algorithm,
            desk.metadata.as_ptr(),
            desk.metadata.len(),
            0,
            0,
            call.key_id.as_ptr(),
            call.key_id.len(),
            desk.public_key.as_ptr(),
            desk.public_key.len(),
            desk.nonce.as_ptr(),
            desk.nonce.len(),
            call.table.as_ptr(),
            call.table.len(),
            response,
            response_size,
            table_out,
            call.room,
            &mut out.answer,
            &mut out.response_length,
            &mut out.table_length,
        )
    })
}

fn completions(
    entries: &Entries,
    desk: &Desk,
    call: &Complete,
    out: &mut Outputs,
    times: u32,
) -> u32 {
    let (response, response_size) = (out.response.as_mut_ptr(), out.response.len());
    // Safety: as in `commands`.
    again(times, || unsafe {
        (entries.complete)(
            call.kind,
            call.draft.as_ptr(),
            call.draft.len(),
            call.attestation,
            desk.signature.as_ptr(),
            desk.signature.len(),
            call.certificate.as_ptr(),
            call.certificate.len(),
            response,
            response_size,
            &mut out.response_length,
        )
    })
}

/// Of its own, so that `repeat` takes no more stack than without it.
#[inline(never)]
fn writings(entries: &Entries, call: &Write, out: &mut Outputs, times: u32) -> u32 {
    let (command, room) = (out.command[..call.room].as_mut_ptr(), call.room);
    let length = &mut out.command_length;
    // Safety: as in `commands`; of a field that is not given there are no bytes.
    match &call.what {
        Written::GetInfo => again(times, || unsafe {
            (entries.write_get_info)(command, room, length)
        }),
        Written::Register { username } => again(times, || unsafe {
            (entries.write_register)(
                GIVEN,
                APP_ID.as_ptr(),
                APP_ID.len(),
                CHALLENGE.as_ptr(),
                CHALLENGE.len(),
                username.as_ptr(),
                username.len(),
                FULL,
                ACCESS_TOKEN.as_ptr(),
                ACCESS_TOKEN.len(),
                NOT_GIVEN,
                NOTHING.as_ptr(),
                NOTHING.len(),
                command,
                room,
                length,
            )
        }),
        Written::Sign {
            content,
            handles,
            handle_sizes,
        } => {
            let (given, content) = match content {
                Some(content) => (GIVEN, &content[..]),
                None => (NOT_GIVEN, NOTHING),
            };
            again(times, || unsafe {
                (entries.write_sign)(
                    GIVEN,
                    APP_ID.as_ptr(),
                    APP_ID.len(),
                    CHALLENGE.as_ptr(),
                    CHALLENGE.len(),
                    given,
                    content.as_ptr(),
                    content.len(),
                    ACCESS_TOKEN.as_ptr(),
                    ACCESS_TOKEN.len(),
                    NOT_GIVEN,
                    NOTHING.as_ptr(),
                    NOTHING.len(),
                    handles.as_ptr(),
                    handles.len(),
                    handle_sizes.as_ptr(),
                    handle_sizes.len(),
                    command,
                    room,
                    length,
                )
            })
        }
        Written::Deregister { key_id } => again(times, || unsafe {
            (entries.write_deregister)(
                GIVEN,
                APP_ID.as_ptr(),
                APP_ID.len(),
                key_id.as_ptr(),
                key_id.len(),
                ACCESS_TOKEN.as_ptr(),
                ACCESS_TOKEN.len(),
                command,
                room,
                length,
            )
        }),
        Written::OpenSettings => again(times, || unsafe {
            (entries.write_open_settings)(command, room, length)
        }),
    }
}

/// Of its own, like `writings`.
#[inline(never)]
fn withdrawals(entries: &Entries, call: &Withdraw, out: &mut Outputs, times: u32) -> u32 {
    let (mixed, mixed_size) = (call.mixed.as_ptr(), call.mixed.len());
    let (key_id, key_id_size) = (call.key_id.as_ptr(), call.key_id.len());
    let (table, table_size) = (call.table.as_ptr(), call.table.len());
    let (table_out, room) = (out.table[..call.room].as_mut_ptr(), call.room);
    let length = &mut out.table_length;
    // Safety: as in `commands`.
    again(times, || unsafe {
        (entries.withdraw)(
            mixed,
            mixed_size,
            key_id,
            key_id_size,
            table,
            table_size,
            table_out,
            room,
            length,
        )
    })
}

/// Of its own, like `writings`.
#[inline(never)]
fn hashes(entries: &Entries, call: &Hash, out: &mut Outputs, times: u32) -> u32 {
    let (first, first_size) = (call.first.as_ptr(), call.first.len());
    let (second, second_size) = (call.second.as_ptr(), call.second.len());
    // Safety: as in `commands`.
    again(times, || unsafe {
        (entries.hash)(first, first_size, second, second_size, &mut out.hash);
        0
    })
}

#[inline(never)]
fn mbedtls_hashes(call: &Hash, out: &mut Outputs, times: u32) -> u32 {
    let (sha256, joined, size) = (mbedtls(), call.joined.as_ptr(), call.joined.len());
    // Safety: as in `commands`.
    again(times, || unsafe {
        sha256(joined, size, &mut out.hash, 0);
        0
    })
}

/// The loop that is timed: nothing but the call stands in it.
#[inline(always)]
fn again(times: u32, mut call: impl FnMut() -> u32) -> u32 {
    let mut gave = 0;
    for _ in 0..times {
        gave = call();
    }
    gave
}
