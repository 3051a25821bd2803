//! Calls of the writers: fields that obey the rules, and some that are certain to break one.

use crate::calls::{Marked, WriteCall, GIVEN, NOT_GIVEN};
use crate::gen_command::{self, MOST_COMMAND, MOST_HANDLES};
use crate::gen_lent::{spoil_number, WrongNames};
use crate::gen_name::{self, MOST_NAME};
use crate::rng::Rng;
use crate::scene::Scene;
use crate::tlv::{self, Child, Kind};

const HANDLE: usize = 32;
/// A length that "any" mostly stays below.
const ANY: usize = 200;
/// The first length that does not fit into 16 bits.
const WRAPS: usize = 0x1_0000;

/// So many bytes, quickly made.
fn long_bytes(rng: &mut Rng, length: usize) -> Vec<u8> {
    vec![rng.next() as u8; length]
}

/// What is not given is not looked at, whatever it is.
fn not_given(rng: &mut Rng) -> Marked {
    let length = match rng.below(10) {
        0 => 513,
        1 => MOST_COMMAND + 1,
        2 => WRAPS + 7,
        3 => rng.below(40),
        _ => 0,
    };
    Marked {
        mark: NOT_GIVEN,
        bytes: long_bytes(rng, length),
    }
}

fn marked(rng: &mut Rng, least: usize, greatest: usize) -> Marked {
    if rng.one_in(2) {
        return not_given(rng);
    }
    let length = rng.length(least, greatest);
    Marked {
        mark: GIVEN,
        bytes: rng.bytes(length),
    }
}

fn some_bytes(rng: &mut Rng, least: usize, greatest: usize) -> Vec<u8> {
    let length = rng.length(least, greatest);
    rng.bytes(length)
}

/// Fields of this command that obey the rules; what it does not list stays empty.
fn right_fields(rng: &mut Rng, kind: Kind, scene: &Scene) -> WriteCall {
    let mut call = WriteCall::new(kind);
    if matches!(kind, Kind::Register | Kind::Sign | Kind::Deregister) {
        call.app_id = match &scene.holder.app_id {
            Some(bytes) => Marked {
                mark: GIVEN,
                bytes: bytes.clone(),
            },
            None => not_given(rng),
        };
        call.access_token = scene.holder.token.to_vec();
    }
    if matches!(kind, Kind::Register | Kind::Sign) {
        call.challenge = some_bytes(rng, 1, 32);
        call.verify_token = marked(rng, 0, ANY);
    }
    match kind {
        Kind::Register => {
            call.username = gen_name::right(rng);
            call.attestation = gen_command::attestation_type(rng).into();
        }
        Kind::Sign => {
            call.content = marked(rng, 0, ANY);
            for handle in gen_command::handles(rng, scene) {
                call.handle_sizes.push(handle.value.len());
                call.handles.extend(handle.value);
            }
        }
        Kind::Deregister if rng.percent(80) => call.key_id = scene.key_id(rng).to_vec(),
        _ => {}
    }
    call
}

/// The children that the fields make, in the order of 001's tables.
fn children(call: &WriteCall) -> Vec<Child> {
    let mut children = Vec::new();
    let mut add = |tag: u16, value: &[u8]| children.push(Child::new(tag, value));
    let given = |field: &Marked| field.mark == GIVEN;
    if call.kind != Kind::GetInfo {
        add(tlv::INDEX, &[0]);
    }
    if given(&call.app_id) {
        add(tlv::APPID, &call.app_id.bytes);
    }
    match call.kind {
        Kind::GetInfo | Kind::OpenSettings => return children,
        Kind::Deregister => {
            add(tlv::KEYID, &call.key_id);
            add(tlv::ACCESS_TOKEN, &call.access_token);
            return children;
        }
        Kind::Register => {
            add(tlv::CHALLENGE_HASH, &call.challenge);
            add(tlv::USERNAME, &call.username);
            add(tlv::ATTESTATION_TYPE, &call.attestation.to_le_bytes()[..2]);
        }
        Kind::Sign => {
            add(tlv::CHALLENGE_HASH, &call.challenge);
            if given(&call.content) {
                add(tlv::TRANSACTION_CONTENT, &call.content.bytes);
            }
        }
    }
    add(tlv::ACCESS_TOKEN, &call.access_token);
    if given(&call.verify_token) {
        add(tlv::USERVERIFY_TOKEN, &call.verify_token.bytes);
    }
    for handle in call.handles.chunks(HANDLE) {
        add(tlv::KEYHANDLE, handle);
    }
    children
}

/// The command that the fields make, also where they break a rule.
pub fn command(call: &WriteCall) -> Vec<u8> {
    tlv::holding(call.kind.tag(), &children(call))
}

/// A field of any length that the command may have.
fn any_field(rng: &mut Rng, kind: Kind) -> Option<fn(&mut WriteCall) -> &mut Marked> {
    match kind {
        Kind::Sign if rng.one_in(2) => Some(|call| &mut call.content),
        Kind::Sign | Kind::Register => Some(|call| &mut call.verify_token),
        _ => None,
    }
}

/// Makes the command this long, if it has a field of any length.
fn grow(rng: &mut Rng, call: &mut WriteCall, size: usize) -> Option<()> {
    let field = any_field(rng, call.kind)?;
    *field(call) = Marked {
        mark: GIVEN,
        bytes: Vec::new(),
    };
    let length = size.checked_sub(command(call).len())?;
    field(call).bytes = rng.bytes(length);
    Some(())
}

/// A right call, now and then as long as allowed, or with a length at which its second byte begins.
/// The output is long enough.
pub fn right(rng: &mut Rng, kind: Kind, scene: &Scene) -> WriteCall {
    let mut call = right_fields(rng, kind, scene);
    if rng.one_in(10) {
        let size = rng.pick(&[MOST_COMMAND, MOST_COMMAND, MOST_COMMAND - 1, 259, 260, 261]);
        let shorter = call.clone();
        if grow(rng, &mut call, size).is_none() {
            call = shorter;
        }
    }
    call.command_size = enough(rng, command(&call).len());
    call
}

fn enough(rng: &mut Rng, length: usize) -> usize {
    match rng.below(6) {
        0 => length + 1,
        1 => length + rng.below(200),
        2 => length.max(MOST_COMMAND),
        _ => length,
    }
}

/// Makes the output shorter than the command that the fields make.
pub fn shorten(rng: &mut Rng, call: &mut WriteCall) -> &'static str {
    let length = command(call).len();
    match rng.below(4) {
        0 => {
            call.command_size = 0;
            "writer: output empty"
        }
        1 => {
            call.command_size = rng.below(length - 1);
            "writer: output too short"
        }
        _ => {
            call.command_size = length - 1;
            "writer: output one byte too short"
        }
    }
}

/// A stretch of a least and a greatest length.
struct Stretch {
    of: fn(&mut WriteCall) -> &mut Vec<u8>,
    least: usize,
    greatest: usize,
    empty: &'static str,
    over: &'static str,
}

const APP_ID: Stretch = Stretch {
    of: |call| {
        call.app_id.mark = GIVEN;
        &mut call.app_id.bytes
    },
    least: 1,
    greatest: 512,
    empty: "writer: AppID of 0",
    over: "writer: AppID over 512",
};
const CHALLENGE: Stretch = Stretch {
    of: |call| &mut call.challenge,
    least: 1,
    greatest: 32,
    empty: "writer: challenge hash of 0",
    over: "writer: challenge hash over 32",
};
const USERNAME: Stretch = Stretch {
    of: |call| &mut call.username,
    least: 1,
    greatest: MOST_NAME,
    empty: "writer: name of 0",
    over: "writer: name over 128",
};

/// The fields with such a length that the command lists.
fn stretches(kind: Kind) -> &'static [Stretch] {
    match kind {
        Kind::Register => &[APP_ID, CHALLENGE, USERNAME],
        Kind::Sign => &[APP_ID, CHALLENGE],
        Kind::Deregister => &[APP_ID],
        Kind::GetInfo | Kind::OpenSettings => &[],
    }
}

fn some_stretch(rng: &mut Rng, kind: Kind) -> Option<&'static Stretch> {
    let stretches = stretches(kind);
    if stretches.is_empty() {
        return None;
    }
    Some(&stretches[rng.below(stretches.len())])
}

/// A length that is wrong, of bytes that are right.
fn resize(rng: &mut Rng, call: &mut WriteCall) -> Option<&'static str> {
    let stretch = some_stretch(rng, call.kind)?;
    let length = rng.wrong_length(stretch.least, stretch.greatest);
    // All are UTF-8, so that a name is wrong by its length alone.
    *(stretch.of)(call) = gen_name::of_length(rng, length);
    Some(if length == 0 {
        stretch.empty
    } else {
        stretch.over
    })
}

const TOKENS: [(usize, &str); 6] = [
    (0, "writer: access token of 0"),
    (1, "writer: access token of 1"),
    (31, "writer: access token of 31"),
    (33, "writer: access token of 33"),
    (64, "writer: access token of another length"),
    (WRAPS + 32, "writer: access token of another length"),
];

fn resize_token(rng: &mut Rng, call: &mut WriteCall) -> Option<&'static str> {
    let (length, what) = rng.pick(&TOKENS);
    call.access_token.resize(length, b'w');
    Some(what)
}

/// A length of more than 16 bits, often good in the low 16.
fn wrap(rng: &mut Rng, call: &mut WriteCall) -> Option<&'static str> {
    let any = any_field(rng, call.kind).filter(|_| rng.one_in(2));
    let (bytes, length) = match any {
        Some(field) => {
            let field = field(call);
            field.mark = GIVEN;
            (&mut field.bytes, rng.below(40))
        }
        None => {
            let stretch = some_stretch(rng, call.kind)?;
            let length = rng.length(stretch.least, stretch.greatest);
            ((stretch.of)(call), length)
        }
    };
    *bytes = vec![b'w'; WRAPS + length];
    Some("writer: field over 65,535 bytes")
}

fn rename(rng: &mut Rng, call: &mut WriteCall) -> Option<&'static str> {
    if call.kind != Kind::Register {
        return None;
    }
    call.username = gen_name::broken(rng);
    Some("writer: name not UTF-8")
}

const ATTESTATION: WrongNames = ["writer: attestation type over 65,535"; 3];

fn retype(rng: &mut Rng, call: &mut WriteCall) -> Option<&'static str> {
    if call.kind != Kind::Register {
        return None;
    }
    Some(spoil_number(
        rng,
        &mut call.attestation,
        0xFFFF,
        ATTESTATION,
    ))
}

fn resize_key_id(rng: &mut Rng, call: &mut WriteCall) -> Option<&'static str> {
    if call.kind != Kind::Deregister {
        return None;
    }
    let length = rng.pick(&[1, 2, 16, 31, 31, 33, 33, 64, WRAPS, WRAPS + HANDLE]);
    call.key_id = long_bytes(rng, length);
    Some("writer: KeyID of neither 0 nor 32")
}

const APP_ID_MARK: WrongNames = [
    "writer: AppID's mark over 1",
    "writer: AppID's mark over 1, its low 8 bits good",
    "writer: AppID's mark over 1, its low 16 bits good",
];
const CONTENT_MARK: WrongNames = [
    "writer: content's mark over 1",
    "writer: content's mark over 1, its low 8 bits good",
    "writer: content's mark over 1, its low 16 bits good",
];
const VERIFY_MARK: WrongNames = [
    "writer: token's mark over 1",
    "writer: token's mark over 1, its low 8 bits good",
    "writer: token's mark over 1, its low 16 bits good",
];

/// A mark that says neither; the bytes beside it are right.
fn remark(rng: &mut Rng, call: &mut WriteCall) -> Option<&'static str> {
    let which = match call.kind {
        Kind::Deregister => 0,
        Kind::Register => rng.pick(&[0, 2]),
        Kind::Sign => rng.below(3),
        Kind::GetInfo | Kind::OpenSettings => return None,
    };
    let (field, names) = match which {
        0 => (&mut call.app_id, APP_ID_MARK),
        1 => (&mut call.content, CONTENT_MARK),
        _ => (&mut call.verify_token, VERIFY_MARK),
    };
    let length = rng.length(1, 40);
    field.bytes = rng.bytes(length);
    Some(spoil_number(rng, &mut field.mark, 1, names))
}

/// Handles of these lengths, which the stretch has.
fn set_handles(rng: &mut Rng, call: &mut WriteCall, sizes: Vec<usize>) {
    call.handles = rng.bytes(sizes.iter().sum());
    call.handle_sizes = sizes;
}

fn many_handles(rng: &mut Rng, call: &mut WriteCall) -> &'static str {
    let number = MOST_HANDLES + rng.pick(&[1, 1, 1, 2, 8]);
    set_handles(rng, call, vec![HANDLE; number]);
    if rng.one_in(2) {
        call.handles = call.handles[..HANDLE].repeat(number);
    }
    "writer: over 8 handles"
}

/// One of them is not 32, also where their sum is a multiple of it.
fn resize_handle(rng: &mut Rng, call: &mut WriteCall) -> &'static str {
    let mut sizes = vec![HANDLE; rng.between(1, MOST_HANDLES)];
    let one = rng.below(sizes.len());
    sizes[one] = rng.pick(&[0, 1, 31, 31, 33, 33, 64, 64, 96, WRAPS + HANDLE]);
    let other = (one + 1) % sizes.len();
    if sizes[one] < 2 * HANDLE && other != one {
        sizes[other] = 2 * HANDLE - sizes[one];
    }
    set_handles(rng, call, sizes);
    "writer: handle's length"
}

/// Each of them is 32, but the stretch is shorter or longer.
fn resize_handles(rng: &mut Rng, call: &mut WriteCall) -> &'static str {
    let number = rng.length(0, MOST_HANDLES);
    set_handles(rng, call, vec![HANDLE; number]);
    let right = number * HANDLE;
    let shorter = [
        right,
        right - number.min(1),
        right.saturating_sub(HANDLE),
        0,
    ];
    let longer = [right + 1, right + HANDLE, right + WRAPS];
    let mut length = rng.pick(&shorter);
    if length == right {
        length = rng.pick(&longer);
    }
    call.handles.resize(length, 0x5D);
    "writer: handles' lengths do not add up"
}

/// A length that no stretch has.
fn huge_handle(rng: &mut Rng, call: &mut WriteCall) -> &'static str {
    set_handles(rng, call, vec![HANDLE; MOST_HANDLES]);
    let number = rng.between(1, MOST_HANDLES);
    call.handle_sizes.truncate(number);
    call.handles.truncate(number * HANDLE);
    let one = rng.below(number);
    let huge = [
        usize::MAX,
        usize::MAX - 31,
        1 << 63,
        (1 << 32) + HANDLE,
        WRAPS + HANDLE,
    ];
    call.handle_sizes[one] = rng.pick(&huge);
    "writer: handle's length far past the stretch"
}

/// Lengths whose sum is the stretch's only modulo 2^64.
fn wrapped_handles(rng: &mut Rng, call: &mut WriteCall) -> &'static str {
    let number = rng.between(2, MOST_HANDLES);
    set_handles(rng, call, vec![HANDLE; number]);
    let one = rng.below(number);
    let other = (one + rng.between(1, number - 1)) % number;
    let huge = rng.pick(&[usize::MAX, usize::MAX - 31, 1 << 63]);
    call.handle_sizes[one] = huge;
    call.handle_sizes[other] = (2 * HANDLE).wrapping_sub(huge);
    "writer: handles' lengths add up modulo 2^64"
}

fn spoil_handles(rng: &mut Rng, call: &mut WriteCall) -> Option<&'static str> {
    if call.kind != Kind::Sign {
        return None;
    }
    Some(match rng.below(5) {
        0 => many_handles(rng, call),
        1 => resize_handle(rng, call),
        2 => resize_handles(rng, call),
        3 => huge_handle(rng, call),
        _ => wrapped_handles(rng, call),
    })
}

fn lengthen(rng: &mut Rng, call: &mut WriteCall) -> Option<&'static str> {
    if rng.one_in(2) {
        grow(rng, call, MOST_COMMAND + 1)?;
        return Some("writer: 8,193 bytes");
    }
    let size = rng.pick(&[MOST_COMMAND + 2, MOST_COMMAND + 4, 9000, 20_000, 65_535]);
    grow(rng, call, size)?;
    Some("writer: over 8,193 bytes")
}

/// A way to break a rule by the fields, which gives its name, or nothing if this command has no such
/// field.
type Fault = fn(&mut Rng, &mut WriteCall) -> Option<&'static str>;

const FAULTS: [Fault; 11] = [
    resize,
    resize,
    resize_token,
    wrap,
    rename,
    retype,
    resize_key_id,
    remark,
    spoil_handles,
    spoil_handles,
    lengthen,
];

/// Breaks one rule by the fields, and says which; nothing, if the command has no fields. The output
/// stays long enough for what they would make.
pub fn spoil(rng: &mut Rng, call: &mut WriteCall) -> Option<&'static str> {
    if matches!(call.kind, Kind::GetInfo | Kind::OpenSettings) {
        return None;
    }
    loop {
        let fault = rng.pick(&FAULTS);
        let mut spoilt = call.clone();
        if let Some(what) = fault(rng, &mut spoilt) {
            *call = spoilt;
            call.command_size = enough(rng, command(call).len());
            return Some(what);
        }
    }
}
