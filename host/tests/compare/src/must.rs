//! What must occur, so that no class of calls goes untried.

use crate::gen_response;
use crate::report::{completion_name, name_of, Class, Entry, Outcome, OTHER, STRETCHES};
use crate::tlv::Kind;
use crate::withdrawn;

/// What a command can answer besides a status alone, as a command and when it is read.
fn answers(kind: Kind, read: bool) -> Vec<Outcome> {
    match kind {
        Kind::GetInfo => vec![Outcome::Info],
        Kind::Register if read => vec![Outcome::Full, Outcome::Surrogate],
        Kind::Register => vec![Outcome::Registration],
        Kind::Sign => {
            let mut answers: Vec<Outcome> = (2..=8).map(Outcome::List).collect();
            answers.extend([Outcome::Signed, Outcome::SignedContent]);
            answers
        }
        Kind::Deregister | Kind::OpenSettings => vec![],
    }
}

/// The faults of which each must have been the only one of some call.
pub const FAULTS: [&str; 140] = [
    "output: response too short",
    "output: table too short",
    "table: over 32 records",
    "table: nine of a holder",
    "table: KeyID twice",
    "table: name of 0",
    "table: name over 128",
    "table: name not UTF-8",
    "table: children's order",
    "table: child's tag",
    "table: child's length",
    "table: child too few or too many",
    "table: record's tag",
    "table: record's length",
    "table: cut short",
    "table: stray bytes",
    "table: no record",
    "outer: fewer than 4 bytes",
    "outer: no command's tag",
    "lent: AAID's length",
    "lent: metadata's length",
    "lent: version over 65,535",
    "lent: signature algorithm over 65,535",
    "lent: key algorithm over 65,535",
    "lent: verdict over 5",
    "lent: verdict over 5, its low 8 bits good",
    "lent: verdict over 5, its low 16 bits good",
    "lent: display result over 3",
    "lent: display result over 3, its low 8 bits good",
    "lent: display result over 3, its low 16 bits good",
    "lent: KeyID's length",
    "lent: public key's length",
    "lent: nonce's length",
    "body: mandatory child missing",
    "body: child's length",
    "body: access token of 0",
    "body: access token of 1",
    "body: access token of 31",
    "body: access token of 33",
    "body: access token of another length",
    "body: access token of 31, its last byte in the AppID",
    "body: access token of 33, the AppID's first byte in it",
    "body: index not 0",
    "body: listed child twice",
    "body: critical child",
    "body: another command's child",
    "body: over 8 handles",
    "body: handle's length",
    "body: name not UTF-8",
    "body: malformed composite",
    "body: level 9",
    "body: over 8,192 bytes",
    "body: outer length too small",
    "body: outer length too great",
    "body: last child too long",
    "body: stray bytes",
    "body: bytes after the command",
    "draft: kind",
    "draft: other kind's",
    "draft: child's length",
    "draft: mode",
    "draft: counters",
    "draft: children's order",
    "draft: child's tag",
    "draft: child missing",
    "draft: child too many",
    "draft: cut short",
    "draft: bytes after",
    "draft: length",
    "draft: tag",
    "completion: signature's length",
    "completion: attestation type",
    "completion: certificate's length",
    "completion: certificate for surrogate",
    "response: status not the command's",
    "response: tag",
    "response: GetInfo's",
    "response: draft alone",
    "response: no draft in it",
    "response: KeyID twice in a list",
    "response: list of 0, 1 or over 8",
    "response: attestation tag",
    "response: certificate too many",
    "response: certificate's length",
    "response: certificate first",
    "response: signature's length",
    "response: name's length",
    "response: name not UTF-8",
    "response: KeyID's length",
    "response: pair's order",
    "response: child too many",
    "response: cut short",
    "response: bytes after",
    "response: length",
    "writer: AppID of 0",
    "writer: AppID over 512",
    "writer: AppID's mark over 1",
    "writer: AppID's mark over 1, its low 8 bits good",
    "writer: AppID's mark over 1, its low 16 bits good",
    "writer: challenge hash of 0",
    "writer: challenge hash over 32",
    "writer: name of 0",
    "writer: name over 128",
    "writer: name not UTF-8",
    "writer: attestation type over 65,535",
    "writer: content's mark over 1",
    "writer: content's mark over 1, its low 8 bits good",
    "writer: content's mark over 1, its low 16 bits good",
    "writer: access token of 0",
    "writer: access token of 1",
    "writer: access token of 31",
    "writer: access token of 33",
    "writer: access token of another length",
    "writer: token's mark over 1",
    "writer: token's mark over 1, its low 8 bits good",
    "writer: token's mark over 1, its low 16 bits good",
    "writer: KeyID of neither 0 nor 32",
    "writer: over 8 handles",
    "writer: handle's length",
    "writer: handle's length far past the stretch",
    "writer: handles' lengths do not add up",
    "writer: handles' lengths add up modulo 2^64",
    "writer: field over 65,535 bytes",
    "writer: 8,193 bytes",
    "writer: over 8,193 bytes",
    "writer: output one byte too short",
    "writer: output too short",
    "writer: output empty",
    "withdrawal: output too short",
    "withdrawal: mixed token's length",
    "withdrawal: KeyID's length",
    "withdrawal: both lengths",
    "withdrawal: another holder's KeyID",
    "withdrawal: nearly the KeyID",
    "withdrawal: nobody's KeyID",
    "withdrawal: another holder's mixed token",
    "withdrawal: nearly the mixed token",
    "withdrawal: a newer one since",
    "withdrawal: an older one",
    "withdrawal: counted",
];

/// Every refusal, status and other answer of every entry.
pub fn classes() -> Vec<Class> {
    let mut must = Vec::new();
    let mut add = |entry, subject, outcomes: &[Outcome]| {
        for &outcome in outcomes {
            must.push(Class {
                entry,
                subject,
                outcome,
            });
        }
    };
    let refusals = |numbers: &[u32]| -> Vec<Outcome> {
        numbers.iter().copied().map(Outcome::Refusal).collect()
    };
    for kind in Kind::ALL {
        let name = name_of(kind);
        let alone: Vec<Outcome> = gen_response::alone(kind)
            .iter()
            .copied()
            .map(Outcome::Status)
            .collect();
        // These two use nothing that is lent.
        let numbers: &[u32] = match kind {
            Kind::Deregister | Kind::OpenSettings => &[1, 2],
            _ => &[1, 2, 4],
        };
        add(Entry::Command, name, &refusals(numbers));
        add(Entry::Command, name, &alone);
        add(Entry::Command, name, &answers(kind, false));
        add(Entry::ReadFields, name, &refusals(&[5]));
        add(Entry::ReadFields, name, &alone);
        add(Entry::ReadFields, name, &answers(kind, true));
        add(Entry::SignedPart, name, &refusals(&[5]));
        add(Entry::SignedPart, name, &[Outcome::NoPart]);
        // What has no fields has none that is wrong.
        let numbers: &[u32] = match kind {
            Kind::GetInfo | Kind::OpenSettings => &[1],
            _ => &[1, 6],
        };
        add(Entry::Write, name, &refusals(numbers));
        add(Entry::Write, name, &[Outcome::Written]);
    }
    for kind in [Kind::Register, Kind::Sign] {
        add(Entry::SignedPart, name_of(kind), &[Outcome::Part]);
    }
    add(Entry::Command, OTHER, &refusals(&[1, 2, 3]));
    add(
        Entry::Withdraw,
        withdrawn::NOT_LOOKED_FOR,
        &refusals(&[1, 2, 4]),
    );
    for reason in withdrawn::REASONS {
        add(Entry::Withdraw, reason, &refusals(&[7]));
    }
    add(Entry::Withdraw, withdrawn::NEWEST, &[Outcome::Withdrawn]);
    for stretches in STRETCHES {
        add(Entry::Hash, stretches, &[Outcome::Hash]);
    }
    add(Entry::SignedPart, OTHER, &refusals(&[5]));
    add(Entry::ReadFields, OTHER, &refusals(&[5]));
    for kind in [0, 1] {
        add(
            Entry::Complete,
            completion_name(kind),
            &refusals(&[1, 4, 5]),
        );
    }
    add(Entry::Complete, completion_name(2), &refusals(&[1, 5]));
    add(
        Entry::Complete,
        completion_name(0),
        &[Outcome::Full, Outcome::Surrogate],
    );
    add(
        Entry::Complete,
        completion_name(1),
        &[Outcome::Signed, Outcome::SignedContent],
    );
    must
}
