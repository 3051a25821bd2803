//! Seeds for the fuzz targets, right calls and calls with one fault, in the form that the comments of
//! `host/fuzz/command.c`, `complete.c`, `signed_part.c` and `hash.c` describe.

use crate::calls::LentBytes;
use crate::follow;
use crate::gen_command;
use crate::gen_draft::{self, REGISTRATION, SIGN};
use crate::gen_holder::Holder;
use crate::gen_lent;
use crate::gen_response;
use crate::gen_table::{Record, MOST_OWN, MOST_RECORDS};
use crate::rng::Rng;
use crate::scene::Scene;
use crate::singles;
use crate::tlv::{self, Child};
use std::fs;
use std::io;
use std::path::Path;

const FILES: usize = 300;
/// Longer seeds would slow the fuzzer down.
const MOST_SEED: usize = 2500;
/// The first flag of every input: buffers after the front guard page.
const FRONT: u8 = 1;
const BY_RECORDS: u8 = 2;
/// A call's flag, and a draft's or response's: put lengths right.
const MEND_COMMAND: u8 = 1;
const MEND: u8 = 2;
/// The first of a call's five flags for numbers that are changed in 32 bits.
const CHANGED: u8 = 2;
/// A call's flags: the holder's access token, its AppID is put behind the command's children.
const PUT_TOKEN: u8 = 64;
const PUT_APP_ID: u8 = 128;
/// The byte that fills lent stretches, and by which the profile's numbers are made, as in command.c.
const FILL: u8 = 0x40;
const VERSION: u32 = FILL as u32 * 257;
const TOKEN: usize = 32;

/// A KeyID by its number, as `numbered` in command.c.
fn numbered(number: u8) -> [u8; 32] {
    let mut bytes = [number & 0x0F; 32];
    if number >> 4 != 0 {
        bytes[usize::from(number >> 4) * 2 + 1] ^= 0x10;
    }
    bytes
}

/// The AppIDs' lengths, as in command.c; 0 is a missing one.
const APP_IDS: [usize; 14] = [0, 1, 2, 23, 24, 31, 32, 33, 87, 88, 95, 96, 511, 512];

/// A holder by its number, as `holder_by` in command.c.
fn holder(number: u8) -> Holder {
    let length = APP_IDS[usize::from(number >> 4) % APP_IDS.len()];
    let app_id = (0..length).map(|i| b'a' + (i % 26) as u8).collect();
    Holder {
        token: [number & 0x0F; 32],
        app_id: Some(app_id).filter(|app_id: &Vec<u8>| !app_id.is_empty()),
    }
}

/// The AppID's number by which a record has the holder's hash but for one bit.
const NEARLY: u8 = 0x0E;

/// The mixed token of a record, as `put_mixed` in command.c.
fn mixed(number: u8) -> [u8; 32] {
    let mut mixed = holder(number).mixed();
    if number >> 4 == NEARLY {
        mixed[31] ^= 1;
    }
    mixed
}

/// A record of the fuzz input: KeyID, holder, name of one letter, counter.
struct Row {
    key: u8,
    holder: u8,
    name: u8,
    counter: u32,
}

impl Row {
    fn encode(&self) -> Vec<u8> {
        let mut bytes = vec![self.key, self.holder, self.name, b'a'];
        bytes.extend(self.counter.to_le_bytes());
        bytes
    }

    fn record(&self) -> Record {
        Record {
            key_id: numbered(self.key),
            mixed: mixed(self.holder),
            name: vec![b'a'; self.name.into()],
            counter: self.counter,
        }
    }
}

fn rows(rng: &mut Rng) -> Vec<Row> {
    let number = match rng.below(8) {
        0 => 0,
        1 => MOST_RECORDS,
        2 => MOST_RECORDS - 1,
        3 => rng.between(5, MOST_RECORDS - 2),
        _ => rng.between(1, 4),
    };
    let mut rows: Vec<Row> = Vec::new();
    for key in 0..number {
        // Enough holders that nobody gets over eight.
        let holder = loop {
            let token = rng.below(number / MOST_OWN + 2) as u8;
            let app_id = rng.pick(&[0, 0, 1, 2, 4, 6, 8, 13, NEARLY]);
            let holder = app_id << 4 | token;
            if rows.iter().filter(|row| row.holder == holder).count() < MOST_OWN {
                break holder;
            }
        };
        rows.push(Row {
            key: key as u8,
            holder,
            name: rng.length(1, 128).min(rng.pick(&[3, 128])) as u8,
            counter: rng.pick(&[0, 1, 0xFF, u32::MAX - 1, u32::MAX]),
        });
    }
    rows
}

fn front(rng: &mut Rng) -> u8 {
    if rng.one_in(4) {
        FRONT
    } else {
        0
    }
}

/// The sizes that one byte stands for, as `take_size` in harness.c.
#[rustfmt::skip]
const LIMITS: [usize; 32] = [
    0, 1, 2, 3, 4, 7, 8, 9, 10, 14, 15, 16, 31, 32, 33, 34,
    64, 127, 128, 129, 255, 256, 257, 511, 512, 513, 514, 2047, 2048, 2049, 2050, 4096,
];

fn size_of(code: u8) -> usize {
    let code = usize::from(code);
    match LIMITS.get(code) {
        Some(&limit) => limit,
        None => 16 * (code - LIMITS.len()),
    }
}

/// The byte for the greatest such size that is not over this one.
fn size_code(size: usize) -> u8 {
    (0..=u8::MAX)
        .filter(|&code| size_of(code) <= size)
        .max_by_key(|&code| size_of(code))
        .unwrap_or(0)
}

/// The flags of the numbers that are out of range, and the bits by which each differs from what the
/// input makes it without a flag. The profile's numbers are otherwise those of the fill.
fn changes(lent: &LentBytes) -> (u8, Vec<u8>) {
    let numbers = [
        (lent.verdict, lent.verdict & 0xFF, 0xFF),
        (lent.display, lent.display & 0xFF, 0xFF),
        (lent.version, VERSION, 0xFFFF),
        (lent.signature_algorithm, VERSION ^ 0x1234, 0xFFFF),
        (lent.key_algorithm, VERSION ^ 0xFFFF, 0xFFFF),
    ];
    let (mut flags, mut bits) = (0, vec![]);
    for (i, (number, unchanged, greatest)) in numbers.into_iter().enumerate() {
        if number > greatest {
            flags |= CHANGED << i;
            bits.extend((number ^ unchanged).to_le_bytes());
        }
    }
    (flags, bits)
}

/// A call's part of the input: flags, numbers, sizes, the command.
fn call_bytes(put: u8, holder: u8, key: u8, lent: &LentBytes, command: &[u8]) -> Vec<u8> {
    let (flags, bits) = changes(lent);
    let flags = MEND_COMMAND | put | flags;
    let mut bytes = vec![flags, lent.verdict as u8, lent.display as u8];
    bytes.extend([holder, key, FILL]);
    bytes.extend(bits);
    let stretches = [
        &lent.aaid,
        &lent.metadata,
        &lent.key_id,
        &lent.nonce,
        &lent.public_key,
    ];
    bytes.extend(stretches.iter().map(|stretch| size_code(stretch.len())));
    bytes.push(size_code(TOKEN));
    // Outputs of the least size, and no filler.
    bytes.extend([0, 0, 0]);
    bytes.extend((command.len() as u16).to_le_bytes());
    bytes.extend(command);
    bytes
}

/// Leaves token and AppID away, to be put in by the target.
fn leave_to_target(children: &mut Vec<Child>) -> u8 {
    let mut put = 0;
    children.retain(|child| {
        let flag = match child.tag {
            tlv::ACCESS_TOKEN => PUT_TOKEN,
            tlv::APPID => PUT_APP_ID,
            _ => return true,
        };
        put |= flag;
        false
    });
    put
}

fn call(rng: &mut Rng, rows: &[Row], records: &[Record]) -> Vec<u8> {
    let kind = singles::some_kind(rng);
    let number = match rows.len() {
        0 => rng.below(6) as u8,
        rows_there => rows[rng.below(rows_there)].holder,
    };
    let scene = Scene::new(records.to_vec(), holder(number));
    let mut children = gen_command::right(rng, kind, &scene);
    let key = rng.below(records.len() + 4) as u8;
    let mut lent = gen_lent::right(rng, &numbered(key));
    let put = if rng.one_in(2) {
        leave_to_target(&mut children)
    } else {
        0
    };
    match rng.below(8) {
        0 => {
            gen_command::spoil(rng, kind, &mut children);
        }
        1 => {
            gen_lent::spoil_used(rng, &mut lent, kind);
        }
        _ => {}
    }
    let command = tlv::holding(kind.tag(), &children);
    call_bytes(put, number, key, &lent, &command)
}

fn command_seed(rng: &mut Rng) -> Vec<u8> {
    let rows = rows(rng);
    let records: Vec<Record> = rows.iter().map(Row::record).collect();
    let mut bytes = vec![front(rng) | BY_RECORDS];
    bytes.extend((rows.len() as u16 * 8).to_le_bytes());
    bytes.extend(rows.iter().flat_map(Row::encode));
    for _ in 0..rng.between(1, 4) {
        bytes.extend(call(rng, &rows, &records));
    }
    bytes
}

fn complete_seed(rng: &mut Rng) -> Vec<u8> {
    let kind = rng.pick(&[REGISTRATION, SIGN]);
    let draft = if rng.one_in(4) {
        gen_draft::spoiled(rng, kind).0
    } else {
        gen_draft::right(rng, kind)
    };
    let mut call = follow::completion(rng, kind, draft);
    if rng.one_in(6) {
        singles::spoil_completion(rng, &mut call);
    }
    let mut bytes = vec![front(rng)];
    bytes.extend(call.kind.to_le_bytes());
    bytes.extend(call.attestation.to_le_bytes());
    bytes.push(size_code(call.signature.len()));
    bytes.push(size_code(call.certificate.len()));
    bytes.extend([0, 0x40]);
    bytes.extend(call.draft);
    bytes
}

fn reader_seed(rng: &mut Rng) -> Vec<u8> {
    let response = if rng.one_in(4) {
        gen_response::spoiled(rng).0
    } else {
        gen_response::right(rng)
    };
    let mend = if rng.one_in(3) { MEND } else { 0 };
    let mut bytes = vec![front(rng) | mend];
    bytes.extend(response);
    bytes
}

/// Where the bytes are parted, then the bytes.
fn hash_seed(rng: &mut Rng) -> Vec<u8> {
    let length = rng.pick(&[0, 1, 3, 55, 56, 63, 64, 65, 119, 120, 128, 544]);
    let place = rng.below(length + 1) as u16;
    let mut bytes = vec![front(rng)];
    bytes.extend(place.to_le_bytes());
    bytes.extend(rng.bytes(length));
    bytes
}

fn write_some(
    directory: &Path,
    target: &str,
    seed: u64,
    make: impl Fn(&mut Rng) -> Vec<u8>,
) -> io::Result<()> {
    let directory = directory.join(target);
    fs::create_dir_all(&directory)?;
    for file in 0..FILES {
        let bytes = make(&mut Rng::new(seed, file as u64));
        if bytes.len() <= MOST_SEED {
            fs::write(directory.join(format!("seed-{:03}", file)), bytes)?;
        }
    }
    Ok(())
}

/// Writes a directory of seeds for each target but `write`, which needs none.
pub fn write(directory: &Path, seed: u64) -> io::Result<()> {
    write_some(directory, "command", seed, command_seed)?;
    write_some(directory, "complete", seed, complete_seed)?;
    write_some(directory, "signed_part", seed, reader_seed)?;
    write_some(directory, "read_fields", seed, reader_seed)?;
    write_some(directory, "hash", seed, hash_seed)
}
