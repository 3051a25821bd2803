//! What is measured: each command on tables of five sizes and four kinds, and on tables with names in other texts; commands that hash much;
//! withdrawals on the same tables; each completion, both calls of the reader, the writers of commands, and some refusals of each; and the hash.

use crate::calls::{
    repeat, repeat_mbedtls, Call, Command, Complete, Desk, Hash, Outputs, Withdraw, Write, Written,
    LEAST_TABLE, MOST_COMMAND,
};
use crate::data::{self, access_token, command, holder_of, noise, Ids, Setting, Text, OWN};
use crate::entries::{peer, token};
use crate::placed::{Placed, Role};

pub struct Case {
    pub name: String,
    pub call: Call,
    /// 0, or the number of the refusal that it meets.
    pub refusal: u32,
}

const OUTPUT: u32 = 1;
const TABLE: u32 = 2;
const LENT: u32 = 4;
const BYTES: u32 = 5;
const FIELD: u32 = 6;
const WITHDRAWAL: u32 = 7;

/// The holder of the first eight records, and one without any: the four of a full table are 0 to 3.
const FIRST: usize = 0;
const NEWCOMER: usize = 9;
/// A KeyID that no table has.
const UNUSED: usize = 99;

const SHORT: usize = 12;
const LONG: usize = 128;

/// The texts of names beside ASCII, as the name of a case says them.
const TEXTS: [(&str, Text); 4] = [
    ("latin", Text::Latin),
    ("cyrillic", Text::Cyrillic),
    ("kana", Text::Kana),
    ("mixed", Text::Mixed),
];
/// The first byte of a letter that has two: with it as its last byte a name is cut.
const HALF: u8 = 0xC3;

const INDEX: (u16, &[u8]) = (0x280D, &[0]);
const APP_ID: (u16, &[u8]) = (0x2804, data::APP_ID);
const CHALLENGE: (u16, &[u8]) = (0x2E0A, data::CHALLENGE);
const FULL: (u16, &[u8]) = (0x2807, &[0x07, 0x3E]);
const CONTENT: &[u8] = b"Race 4, place, 3 runners share: 7.40 / 2.10 / 2.10";

/// The commands, as they are numbered here.
const GET_INFO: usize = 0;
const REGISTER: usize = 1;
const SIGN: usize = 2;
const SIGN_ONE: usize = 3;
const SIGN_CONTENT: usize = 4;
const DEREGISTER_ONE: usize = 5;
const DEREGISTER_ALL: usize = 6;
const NAMES: [&str; 8] = [
    "GetInfo",
    "Register",
    "Sign, no handle",
    "Sign, one handle",
    "Sign, one handle, content",
    "Deregister one",
    "Deregister all",
    "Open settings",
];

/// A newcomer's.
fn register(app_id: &[u8], name: &[u8]) -> Vec<u8> {
    let token = access_token(NEWCOMER);
    let (app_id, name, token) = ((0x2804, app_id), (0x2806, name), (0x2805, &token[..]));
    let children = [INDEX, app_id, CHALLENGE, name, FULL, token];
    command(0x3402, &children)
}

/// The first holder's, with the handle of its third record, or of the last one before it.
fn sign(setting: &Setting, content: Option<&[u8]>, with_handle: bool) -> Vec<u8> {
    let token = access_token(FIRST);
    let handle = setting.ids.key_id(setting.records.clamp(1, 3) - 1);
    let mut children = vec![INDEX, APP_ID, CHALLENGE, (0x2805, &token[..])];
    children.extend(content.map(|content| (0x2810, content)));
    children.extend(with_handle.then_some((0x2801, &handle[..])));
    command(0x3403, &children)
}

fn deregister(key: &[u8]) -> Vec<u8> {
    let token = access_token(FIRST);
    command(0x3404, &[INDEX, APP_ID, (0x2E09, key), (0x2805, &token)])
}

fn command_bytes(which: usize, setting: &Setting) -> Vec<u8> {
    match which {
        GET_INFO => command(0x3401, &[]),
        REGISTER => register(data::APP_ID, &setting.name(UNUSED)),
        SIGN => sign(setting, None, false),
        SIGN_ONE => sign(setting, None, true),
        SIGN_CONTENT => sign(setting, Some(CONTENT), true),
        DEREGISTER_ONE => deregister(&setting.ids.key_id(0)),
        DEREGISTER_ALL => deregister(&[]),
        _ => command(0x3406, &[INDEX]),
    }
}

/// A command of the first holder's, a Register of a newcomer's.
fn command_call(which: usize, setting: &Setting) -> Command {
    let caller = if which == REGISTER { NEWCOMER } else { FIRST };
    Command {
        command: Placed::new(&command_bytes(which, setting), Role::Command),
        key_id: Placed::new(&setting.ids.key_id(UNUSED), Role::KeyId),
        table: Placed::new(&setting.table(caller), Role::Table),
        room: LEAST_TABLE,
    }
}

fn served(name: String, call: Call) -> Case {
    Case {
        name,
        call,
        refusal: 0,
    }
}

fn refused(name: String, call: Call, refusal: u32) -> Case {
    Case {
        name,
        call,
        refusal,
    }
}

/// The tables, and how the name of a case says it. On an empty one nothing can be alike or long.
fn settings() -> Vec<(String, Setting)> {
    let mut settings = vec![("0 records".to_string(), Setting::new(0, Ids::Random, SHORT))];
    for records in [1, 8, 16, 32] {
        let kinds = [
            ("", Ids::Random, SHORT),
            (", long names", Ids::Random, LONG),
            (", alike", Ids::Alike, SHORT),
            (", alike, long names", Ids::Alike, LONG),
        ];
        for (kind, ids, name_length) in kinds {
            let plural = if records == 1 { "" } else { "s" };
            let said = format!("{} record{}{}", records, plural, kind);
            settings.push((said, Setting::new(records, ids, name_length)));
        }
    }
    settings.extend(settings_in_texts());
    settings
}

/// Names in other texts, of the same lengths.
fn settings_in_texts() -> Vec<(String, Setting)> {
    let mut settings = Vec::new();
    for (said, records) in [("1 record", 1), ("8 records", 8), ("32 records", 32)] {
        for (text_said, text) in TEXTS {
            for (long, length) in [("", SHORT), (", long names", LONG)] {
                let setting = Setting::new(records, Ids::Random, length).written_in(text);
                settings.push((format!("{}, {}{}", said, text_said, long), setting));
            }
        }
    }
    settings
}

/// The tag that a command's answer has on a table of so many records, and its status where it is a status alone.
fn answered(which: usize, records: usize) -> (u16, Option<u8>) {
    match (which, records) {
        (GET_INFO, _) => (0x3601, None),
        (REGISTER, 32) => (0x3602, Some(0x0F)),
        (REGISTER, _) => (0x3E03, None),
        (SIGN | SIGN_ONE | SIGN_CONTENT, 0) => (0x3603, Some(0x02)),
        (SIGN, 2..) => (0x3603, None),
        (SIGN | SIGN_ONE | SIGN_CONTENT, _) => (0x3E04, None),
        (DEREGISTER_ONE, 0) => (0x3604, Some(0x02)),
        (DEREGISTER_ONE | DEREGISTER_ALL, _) => (0x3604, Some(0x00)),
        _ => (0x3606, Some(0x06)),
    }
}

/// A command that is answered as its name says: one that finds no record of its holder's would be quicker.
fn command_case(desk: &Desk, name: String, which: usize, setting: &Setting, call: Command) -> Case {
    let case = served(name, Call::Command(call));
    let bytes = answer(desk, &case.call);
    let tag = u16::from_le_bytes([bytes[0], bytes[1]]);
    let status = (bytes.len() == 10).then(|| bytes[8]);
    let expected = answered(which, setting.records);
    assert_eq!((tag, status), expected, "{}", case.name);
    case
}

fn commands(desk: &Desk) -> Vec<Case> {
    let mut cases = Vec::new();
    for (which, name) in NAMES.iter().enumerate() {
        for (said, setting) in settings() {
            let name = format!("{}, {}", name, said);
            let call = command_call(which, &setting);
            cases.push(command_case(desk, name, which, &setting, call));
        }
    }
    cases
}

/// On a full table the KeyIDs and mixed tokens that are the hardest to tell apart.
fn hardest() -> Case {
    let full = Setting::new(32, Ids::OfOneSum, SHORT);
    let call = Call::Command(command_call(GET_INFO, &full));
    served("GetInfo: 32 records, sums alike".to_string(), call)
}

/// A Register whose name is wrong only in its last byte, which is status 0x08.
fn cut_name() -> Case {
    let setting = Setting::new(8, Ids::Random, LONG).written_in(Text::Latin);
    let mut name = setting.name(UNUSED);
    name[LONG - 1] = HALF;
    let mut call = command_call(REGISTER, &setting);
    call.command = Placed::new(&register(data::APP_ID, &name), Role::Command);
    let name = "Register: 8 records, its own long name cut".to_string();
    served(name, Call::Command(call))
}

/// Commands with much to hash: the longest AppID, and content that leaves room for little else.
fn much_hashed(desk: &Desk) -> Vec<Case> {
    let setting = Setting::new(8, Ids::Random, SHORT);
    let longest = register(&noise(MOST_APP_ID, 9), &setting.name(UNUSED));
    let content = sign(&setting, Some(&noise(8000, 7)), true);
    [
        ("Register: 8 records, AppID of 512", REGISTER, longest),
        ("Sign: 8 records, content of 8,000", SIGN_CONTENT, content),
    ]
    .into_iter()
    .map(|(name, which, bytes)| {
        let mut call = command_call(which, &setting);
        call.command = Placed::new(&bytes, Role::Command);
        command_case(desk, name.to_string(), which, &setting, call)
    })
    .collect()
}

/// A table that is wrong only at the end of its last record or of its last name, and one byte too little room for it.
fn refused_commands() -> Vec<Case> {
    let full = Setting::new(32, Ids::Random, SHORT);
    let mut broken = command_call(SIGN_ONE, &full);
    let last_tag = broken.table.len() - 8;
    broken.table[last_tag] ^= 1;
    let named = Setting::new(32, Ids::Random, LONG).written_in(Text::Latin);
    let mut cut = command_call(SIGN_ONE, &named);
    let last_of_name = cut.table.len() - 8 - 1;
    cut.table[last_of_name] = HALF;
    let mut short = command_call(SIGN_ONE, &full);
    short.room = LEAST_TABLE - 1;
    let name = |what: &str| format!("refused: {}", what);
    vec![
        refused(
            name("the last of 32 records broken"),
            Call::Command(broken),
            TABLE,
        ),
        refused(
            name("the last of 32 long names cut"),
            Call::Command(cut),
            TABLE,
        ),
        refused(
            name("an output one byte too short"),
            Call::Command(short),
            OUTPUT,
        ),
    ]
}

/// A record's withdrawal, by its holder.
fn withdraw_call(setting: &Setting, record: usize) -> Withdraw {
    let caller = holder_of(record);
    Withdraw {
        mixed: Placed::new(&setting.ids.mixed(caller, caller), Role::Mixed),
        key_id: Placed::new(&setting.ids.key_id(record), Role::KeyId),
        table: Placed::new(&setting.table(caller), Role::Table),
        room: LEAST_TABLE,
    }
}

/// The withdrawal of a record that has not signed, of which it is made sure that it leaves all others.
fn withdrawal(desk: &Desk, name: String, setting: &Setting, record: usize) -> Case {
    let setting = setting.with_unsigned(record);
    let case = served(name, Call::Withdraw(withdraw_call(&setting, record)));
    let out = written_by_peer(desk, &case.call);
    let others = setting.table_without(record, holder_of(record));
    assert!(out.table[..out.table_length] == others, "{}", case.name);
    case
}

/// Of the table's last record, and of the first holder's last where those of others stand behind it.
fn withdrawals(desk: &Desk) -> Vec<Case> {
    let mut cases = Vec::new();
    for (said, setting) in settings() {
        if let Some(last) = setting.records.checked_sub(1) {
            let name = format!("Withdraw the last, {}", said);
            cases.push(withdrawal(desk, name, &setting, last));
        }
    }
    for (said, setting) in settings() {
        if setting.records > OWN {
            let name = format!("Withdraw, others behind, {}", said);
            cases.push(withdrawal(desk, name, &setting, OWN - 1));
        }
    }
    cases
}

/// Of the last of 32 records, each refused by one thing alone: before it is spoilt it is made sure that it would be done.
fn refused_withdrawals(desk: &Desk) -> Vec<Case> {
    const RECORDS: usize = 32;
    let full = Setting::new(RECORDS, Ids::Random, SHORT);
    let case = |what: &str, refusal, spoil: fn(&mut Withdraw)| {
        let name = format!("withdraw: refused, {}", what);
        let mut case = withdrawal(desk, name, &full, RECORDS - 1);
        if let Call::Withdraw(call) = &mut case.call {
            spoil(call);
        }
        Case { refusal, ..case }
    };
    vec![
        case("nothing is the holder's", WITHDRAWAL, |call| {
            let mixed = Ids::Random.mixed(NEWCOMER, NEWCOMER);
            call.mixed = Placed::new(&mixed, Role::Mixed);
        }),
        case("it has signed", WITHDRAWAL, |call| {
            let count = call.table.len() - 4;
            call.table[count] = 1;
        }),
        // It changes places with the one before it.
        case("it is not the newest", WITHDRAWAL, |call| {
            let record = call.table.len() / RECORDS;
            let two_last = call.table.len() - 2 * record;
            call.table[two_last..].rotate_left(record);
        }),
        case("a KeyID one byte too short", LENT, |call| {
            let short = call.key_id.len() - 1;
            call.key_id = Placed::new(&call.key_id[..short], Role::KeyId);
        }),
        case("the last of 32 records broken", TABLE, |call| {
            let last_tag = call.table.len() - 8;
            call.table[last_tag] ^= 1;
        }),
        case("an output one byte too short", OUTPUT, |call| {
            call.room -= 1;
        }),
    ]
}

/// What the peer writes in a call that is not refused.
fn written_by_peer(desk: &Desk, call: &Call) -> Outputs {
    let mut out = Outputs::new();
    assert_eq!(repeat(&peer(), desk, call, &mut out, 1), 0);
    out
}

/// What the peer writes as the response to a call.
fn answer(desk: &Desk, call: &Call) -> Vec<u8> {
    let out = written_by_peer(desk, call);
    out.response[..out.response_length].to_vec()
}

fn answer_to(desk: &Desk, which: usize, setting: &Setting) -> Vec<u8> {
    answer(desk, &Call::Command(command_call(which, setting)))
}

fn complete(kind: u32, draft: &[u8], attestation: u32, certificate: &[u8]) -> Call {
    Call::Complete(Complete {
        kind,
        draft: Placed::new(draft, Role::Draft),
        attestation,
        certificate: Placed::new(certificate, Role::Certificate),
    })
}

/// The length of the certificate in a full registration.
const CERTIFICATE: usize = 450;

fn completions(desk: &Desk) -> Vec<(&'static str, Call)> {
    let empty = Setting::new(0, Ids::Random, SHORT);
    let half = Setting::new(16, Ids::Random, SHORT);
    let krd = answer_to(desk, REGISTER, &empty);
    let signed = answer_to(desk, SIGN_ONE, &half);
    let confirmed = answer_to(desk, SIGN_CONTENT, &half);
    vec![
        (
            "registration, full",
            complete(0, &krd, 0x3E07, &noise(CERTIFICATE, 6)),
        ),
        ("registration, surrogate", complete(0, &krd, 0x3E08, &[])),
        ("sign", complete(1, &signed, 0, &[])),
        ("sign, content", complete(1, &confirmed, 0, &[])),
    ]
}

/// A draft that is wrong only in its last field: a Sign's count, which has risen, is 0.
fn refused_completion(desk: &Desk) -> Case {
    let half = Setting::new(16, Ids::Random, SHORT);
    let mut draft = answer_to(desk, SIGN_ONE, &half);
    let count = draft.len() - 4;
    draft[count..].fill(0);
    let name = "complete: refused, the count of a sign is 0".to_string();
    refused(name, complete(1, &draft, 0, &[]), BYTES)
}

/// The lists of names: of all eight records, and of two; then of eight in other texts.
fn lists(desk: &Desk) -> Vec<(String, Vec<u8>)> {
    let list = |records, ids, length| answer_to(desk, SIGN, &Setting::new(records, ids, length));
    let mut lists = vec![
        ("eight names".to_string(), list(8, Ids::Random, SHORT)),
        ("eight names, alike".to_string(), list(8, Ids::Alike, SHORT)),
        ("eight long names".to_string(), list(8, Ids::Random, LONG)),
        (
            "eight long names, alike".to_string(),
            list(8, Ids::Alike, LONG),
        ),
        ("two names".to_string(), list(2, Ids::Random, SHORT)),
    ];
    for (said, text) in TEXTS {
        for (names, length) in [("eight names", SHORT), ("eight long names", LONG)] {
            let setting = Setting::new(8, Ids::Random, length).written_in(text);
            let name = format!("{}, {}", names, said);
            lists.push((name, answer_to(desk, SIGN, &setting)));
        }
    }
    lists
}

fn responses(desk: &Desk) -> Vec<(String, Vec<u8>)> {
    let empty = Setting::new(0, Ids::Random, SHORT);
    let mut responses: Vec<(String, Vec<u8>)> = completions(desk)
        .iter()
        .map(|(name, call)| (name.to_string(), answer(desk, call)))
        .collect();
    responses.push(("GetInfo".to_string(), answer_to(desk, GET_INFO, &empty)));
    responses.extend(lists(desk));
    responses.push(("a status alone".to_string(), answer_to(desk, SIGN, &empty)));
    responses
}

/// Bytes that are a response but for their last field or name: the tag of a certificate is a signature's, the eighth KeyID is the first one again, and
/// the eighth name is cut.
fn no_responses(desk: &Desk) -> Vec<(String, Vec<u8>)> {
    let (_, full) = completions(desk).swap_remove(0);
    let mut registration = answer(desk, &full);
    let tag = registration.len() - CERTIFICATE - 4;
    registration[tag] = 0x06;
    let mut list = answer_to(desk, SIGN, &Setting::new(8, Ids::Random, SHORT));
    let (first, last) = (4 + 6 + 4 + 4 + SHORT + 4, list.len() - 32);
    list.copy_within(first..first + 32, last);
    let named = Setting::new(8, Ids::Random, LONG).written_in(Text::Latin);
    let mut cut = answer_to(desk, SIGN, &named);
    let last_of_name = cut.len() - 32 - 4 - 1;
    cut[last_of_name] = HALF;
    vec![
        ("refused, its last tag".to_string(), registration),
        ("refused, a KeyID twice".to_string(), list),
        ("refused, the last name cut".to_string(), cut),
    ]
}

fn both_readings(name: &str, response: &[u8], refusal: u32) -> Vec<Case> {
    let placed = || Placed::new(response, Role::Response);
    let case = |entry: &str, call| Case {
        name: format!("{}: {}", entry, name),
        call,
        refusal,
    };
    vec![
        case("signed part", Call::SignedPart(placed())),
        case("fields", Call::ReadFields(placed())),
    ]
}

fn write(what: Written) -> Call {
    Call::Write(Write {
        what,
        room: MOST_COMMAND,
    })
}

fn write_register(name: &[u8]) -> Call {
    write(Written::Register {
        username: Placed::new(name, Role::Username),
    })
}

/// With content of so many bytes, or none, and so many handles.
fn write_sign(content: Option<usize>, handles: usize) -> Written {
    Written::Sign {
        content: content.map(|length| Placed::new(&noise(length, 7), Role::Content)),
        handles: Placed::new(&noise(HANDLE * handles, 8), Role::Handles),
        handle_sizes: vec![HANDLE; handles],
    }
}

fn write_deregister(key: &[u8]) -> Call {
    write(Written::Deregister {
        key_id: Placed::new(key, Role::KeyId),
    })
}

/// The length of a key handle.
const HANDLE: usize = 32;
/// The lengths of an access token and of the longest AppID.
const TOKEN: usize = 32;
const MOST_APP_ID: usize = 512;

/// A Register for each text and length of name.
fn written_registers() -> Vec<Case> {
    let mut cases = Vec::new();
    for (said, text) in [("", Text::Ascii)].into_iter().chain(TEXTS) {
        for length in [SHORT, LONG] {
            let setting = Setting::new(1, Ids::Random, length).written_in(text);
            let comma = if said.is_empty() { "" } else { ", " };
            let name = format!("write: Register, name of {}{}{}", length, comma, said);
            cases.push(served(name, write_register(&setting.name(UNUSED))));
        }
    }
    cases
}

fn written() -> Vec<Case> {
    let mut cases = vec![served(
        "write: GetInfo".to_string(),
        write(Written::GetInfo),
    )];
    cases.extend(written_registers());
    for (said, content, handles) in [
        ("no content, no handle", None, 0),
        ("no content, one handle", None, 1),
        ("no content, 8 handles", None, 8),
        ("content of 0, no handle", Some(0), 0),
        ("content of 100, no handle", Some(100), 0),
        ("content of 100, 8 handles", Some(100), 8),
        ("content of 8,000, no handle", Some(8000), 0),
    ] {
        let name = format!("write: Sign, {}", said);
        cases.push(served(name, write(write_sign(content, handles))));
    }
    let key = Ids::Random.key_id(0);
    for (name, key) in [("one", &key[..]), ("all", &[])] {
        let name = format!("write: Deregister {}", name);
        cases.push(served(name, write_deregister(key)));
    }
    let settings = write(Written::OpenSettings);
    cases.push(served("write: Open settings".to_string(), settings));
    cases
}

/// Fields of which only the last byte or the last length is wrong, a command that is one byte too long, and one byte too little room.
fn unwritten(desk: &Desk) -> Vec<Case> {
    let setting = Setting::new(1, Ids::Random, LONG).written_in(Text::Latin);
    let mut cut = setting.name(UNUSED);
    cut[LONG - 1] = HALF;
    let longer = Written::Sign {
        content: None,
        handles: Placed::new(&noise(HANDLE * 8 + 1, 8), Role::Handles),
        handle_sizes: [vec![HANDLE; 7], vec![HANDLE + 1]].concat(),
    };
    let length = |what: Written| written_by_peer(desk, &write(what)).command_length;
    let fits = MOST_COMMAND - length(write_sign(Some(0), 0));
    let short = Write {
        room: length(write_sign(None, 8)) - 1,
        what: write_sign(None, 8),
    };
    let case =
        |what: &str, call, refusal| refused(format!("write: refused, {}", what), call, refusal);
    vec![
        case("a long name cut", write_register(&cut), FIELD),
        case("the eighth handle too long", write(longer), FIELD),
        case(
            "one byte too long",
            write(write_sign(Some(fits + 1), 0)),
            FIELD,
        ),
        case("an output one byte too short", Call::Write(short), OUTPUT),
    ]
}

/// Two blocks with what is appended, the longest that a mixed token is made of, and as much as a command has.
fn hashes() -> Vec<Case> {
    [
        ("hash: 64 bytes", 64, 0),
        ("hash: 544 bytes, 32 and 512", TOKEN, MOST_APP_ID),
        ("hash: 8,192 bytes", MOST_COMMAND, 0),
    ]
    .into_iter()
    .map(|(name, first, second)| {
        let (first, second) = (noise(first, 10), noise(second, 11));
        let call = Hash {
            joined: Placed::new(&[&first[..], &second].concat(), Role::Joined),
            first: Placed::new(&first, Role::First),
            second: Placed::new(&second, Role::Second),
        };
        served(name.to_string(), Call::Hash(call))
    })
    .collect()
}

/// All cases, in the order in which they are reported.
pub fn all(desk: &Desk) -> Vec<Case> {
    let mut cases = commands(desk);
    cases.push(hardest());
    cases.push(cut_name());
    cases.extend(much_hashed(desk));
    cases.extend(refused_commands());
    cases.extend(withdrawals(desk));
    cases.extend(refused_withdrawals(desk));
    for (name, call) in completions(desk) {
        cases.push(served(format!("complete: {}", name), call));
    }
    cases.push(refused_completion(desk));
    for (name, response) in responses(desk) {
        cases.extend(both_readings(&name, &response, 0));
    }
    for (name, bytes) in no_responses(desk) {
        cases.extend(both_readings(&name, &bytes, BYTES));
    }
    cases.extend(written());
    cases.extend(unwritten(desk));
    cases.extend(hashes());
    cases
}

impl Case {
    /// What both sides write, after it was made sure that they give and write the same.
    pub fn agreed(&self, desk: &Desk) -> Outputs {
        let outputs = [token(), peer()].map(|entries| {
            let mut out = Outputs::new();
            let gave = repeat(&entries, desk, &self.call, &mut out, 1);
            assert_eq!(gave, self.refusal, "{}", self.name);
            out
        });
        let [token, peer] = outputs;
        assert!(token == peer, "{}: the outputs differ", self.name);
        let mut out = Outputs::new();
        if repeat_mbedtls(&self.call, &mut out, 1).is_some() {
            assert!(token == out, "{}: mbedTLS's differs", self.name);
        }
        token
    }

    /// Whether mbedTLS has it too.
    pub fn is_hash(&self) -> bool {
        matches!(self.call, Call::Hash(_))
    }

    /// What the floor copies: what the call writes, the response first, or for the reader the response that it reads.
    pub fn goes_through(&self, desk: &Desk) -> Vec<Placed> {
        let out = self.agreed(desk);
        let response = |bytes: &[u8]| Placed::new(bytes, Role::Response);
        match &self.call {
            Call::SignedPart(read) | Call::ReadFields(read) => vec![response(read)],
            // A copy is no floor for a hash: mbedTLS stands beside it.
            Call::Hash(_) => Vec::new(),
            _ if self.refusal != 0 => Vec::new(),
            Call::Command(_) => vec![
                response(&out.response[..out.response_length]),
                Placed::new(&out.table[..out.table_length], Role::Table),
            ],
            Call::Withdraw(_) => vec![Placed::new(&out.table[..out.table_length], Role::Table)],
            Call::Complete(_) => vec![response(&out.response[..out.response_length])],
            Call::Write(_) => vec![Placed::new(
                &out.command[..out.command_length],
                Role::Command,
            )],
        }
    }
}
