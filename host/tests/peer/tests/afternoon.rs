//! Long lists of calls, damaged ones among them: every table left can be given again, and every
//! answer read back.

mod common;

use common::*;
use uaf_peer::{complete, load, read_fields, signed_part, withdraw, Lent, RecordValue, Refusal};

/// A linear congruential generator: the same list on every run.
struct Dice(u64);

impl Dice {
    fn below(&mut self, bound: usize) -> usize {
        self.0 = self
            .0
            .wrapping_mul(6364136223846793005)
            .wrapping_add(1442695040888963407);
        (self.0 >> 33) as usize % bound
    }
}

fn any_command(dice: &mut Dice) -> Vec<u8> {
    let one = |dice: &mut Dice| dice.below(64) as u8;
    match dice.below(16) {
        0 => with(GETINFO, &[]),
        1 => with(OPEN_SETTINGS, &[]),
        2 => with(DEREGISTER, &[]),
        3..=5 => deregister(one(dice)),
        6 => with(SIGN, &[]),
        7 => with(
            SIGN,
            &[handle(one(dice)), handle(one(dice)), content(b"pay")],
        ),
        8 => with(SIGN, &[content(b"pay")]),
        _ => with(REGISTER, &[]),
    }
}

/// Some of the commands with other bytes or an early end.
fn damaged(dice: &mut Dice, mut command: Vec<u8>) -> Vec<u8> {
    if dice.below(4) == 0 {
        for _ in 0..=dice.below(3) {
            let place = dice.below(command.len());
            command[place] = dice.below(256) as u8;
        }
    }
    if dice.below(16) == 0 {
        command.truncate(dice.below(command.len()));
    }
    command
}

/// A draft is read within the response that Complete makes of it.
fn completes(draft: &[u8]) -> Vec<u8> {
    let mut out = [0; 4096];
    let kind = u32::from(draft[0] == 0x04);
    let length = complete(kind, draft, 0x3E08, b"SIG", b"", &mut out).unwrap();
    let response = out[..length].to_vec();
    assert_eq!(response[signed_part(&response).unwrap()], *draft);
    response
}

#[test]
fn any_list() {
    let mut dice = Dice(1);
    let mut drafts = 0;
    let mut refusals = 0;
    let mut table = vec![];
    for _ in 0..20_000 {
        let holder = dice.below(6) as u8;
        let whole = by(holder, any_command(&mut dice));
        let bytes = damaged(&mut dice, whole);
        let key_id = [dice.below(64) as u8; 32];
        let lent = Lent {
            key_id: &key_id[..32 - dice.below(20) / 19],
            verdict: (dice.below(20) as u32).saturating_sub(13),
            display: (dice.below(20) as u32).saturating_sub(15),
            ..lent()
        };
        match run(&bytes, &lent, &table) {
            Err(refusal) => {
                assert!(matches!(refusal, Refusal::Command | Refusal::Lent));
                refusals += 1;
            }
            Ok((Got::Response(response), left)) => {
                let fields = read_fields(&response).unwrap();
                assert_eq!(fields.tag.to_le_bytes(), response[..2]);
                assert_eq!(signed_part(&response), Ok(0..0));
                if fields.status != 0 {
                    assert_eq!(left, table);
                }
                table = left;
            }
            Ok((Got::Draft(draft), left)) => {
                read_fields(&completes(&draft)).unwrap();
                drafts += 1;
                table = left;
            }
        }
    }
    assert!(drafts > 100 && refusals > 100);
}

/// Damaged tables, drafts and responses are refused or read, and never end a call otherwise.
#[test]
fn any_damage() {
    let mut dice = Dice(2);
    let table = [record(1, OWN, b"Ann", 3), record(2, OTHER, b"Bo", 9)].concat();
    let draft = signed_data(&lent(), 1, 4, true);
    let response = completes(&draft);
    for _ in 0..20_000 {
        let mut damaged = [table.clone(), draft.clone(), response.clone()];
        for bytes in &mut damaged {
            for _ in 0..=dice.below(4) {
                let place = dice.below(bytes.len());
                bytes[place] = dice.below(256) as u8;
            }
            if dice.below(8) == 0 {
                bytes.truncate(dice.below(bytes.len()));
            }
        }
        let [table, draft, response] = damaged;
        let served = run(&with(SIGN, &[]), &lent(), &table);
        assert!(served.is_ok() || served == Err(Refusal::Table));
        let mut out = [0; 4096];
        let completed = complete(1, &draft, 0, b"SIG", b"", &mut out);
        assert!(completed.is_ok() || completed == Err(Refusal::Bytes));
        assert_eq!(
            read_fields(&response).is_ok(),
            signed_part(&response).is_ok()
        );
    }
}

/// A call of the holder's.
enum Own {
    Command(Vec<u8>),
    /// A withdrawal of this KeyID.
    Withdrawal(u8),
}

/// A command's answer or a withdrawal's, and the table left.
fn answered(own: &Own, lent: &Lent, table: &[u8]) -> (Result<Option<Got>, Refusal>, Vec<u8>) {
    match own {
        Own::Command(bytes) => {
            let (got, left) = run(bytes, lent, table).unwrap();
            (Ok(Some(got)), left)
        }
        Own::Withdrawal(key_id) => match withdrawn(OWN, &[*key_id; 32], table) {
            Ok(left) => (Ok(None), left),
            Err(refusal) => (Err(refusal), table.to_vec()),
        },
    }
}

/// A holder's withdrawal.
fn withdrawn(holder: u8, key_id: &[u8; 32], table: &[u8]) -> Result<Vec<u8>, Refusal> {
    let mut left = [0; 6912];
    let length = withdraw(&mixed(holder), key_id, table, &mut left)?;
    Ok(left[..length].to_vec())
}

/// The holder's records in a table.
fn own_records(table: &[u8]) -> Vec<RecordValue> {
    let table = load(table).unwrap();
    let records = &table.records[..table.count];
    let own = records.iter().filter(|record| record.mixed == mixed(OWN));
    own.copied().collect()
}

/// Each Register is lent its place in the list.
fn own_calls() -> Vec<Own> {
    let commands = [
        with(REGISTER, &[]),
        with(REGISTER, &[]),
        with(SIGN, &[]),
        with(SIGN, &[handle(1)]),
        with(SIGN, &[handle(7)]),
        deregister(7),
        deregister(0),
        with(SIGN, &[content(b"pay")]),
        with(DEREGISTER, &[]),
        with(SIGN, &[]),
    ];
    let mut own: Vec<Own> = commands.into_iter().map(Own::Command).collect();
    own.extend([
        Own::Command(with(REGISTER, &[])),
        Own::Command(with(REGISTER, &[])),
        Own::Withdrawal(10),
        Own::Withdrawal(11),
        Own::Command(with(SIGN, &[])),
        Own::Withdrawal(10),
        Own::Command(with(REGISTER, &[])),
        Own::Withdrawal(16),
        Own::Withdrawal(16),
    ]);
    own
}

/// A holder's answers and records are the same whatever strangers do between its calls, also with its
/// KeyIDs, and also where a stranger has its access token with an AppID.
#[test]
fn two_afternoons() {
    let own = own_calls();
    let afternoon = |strangers: &mut dyn FnMut(Vec<u8>) -> Vec<u8>| {
        let mut table = vec![];
        let mut answers = vec![];
        for (n, call) in own.iter().enumerate() {
            table = strangers(table);
            let key_id = [n as u8; 32];
            let holder = Lent {
                key_id: &key_id,
                ..lent()
            };
            let (answer, left) = answered(call, &holder, &table);
            answers.push((answer, own_records(&left)));
            table = left;
        }
        answers
    };
    let alone = afternoon(&mut |table| table);
    let refused = |(answer, _): &&(Result<_, Refusal>, _)| *answer == Err(Refusal::Withdrawal);
    assert_eq!(alone.iter().filter(refused).count(), 3);

    let mut dice = Dice(3);
    let mut calls = 0u16;
    let mut drafts = 0;
    let mut withdrawals = 0;
    let crowded = afternoon(&mut |mut table| {
        for _ in 0..20 {
            let whole = any_command(&mut dice);
            let bytes = match dice.below(3) {
                0 => damaged(&mut dice, by(OTHER, whole)),
                1 => damaged(&mut dice, by(THIRD, whole)),
                // Damaged it might lose its AppID and be the holder's.
                _ => at(b"app", whole),
            };
            // A KeyID that no earlier call was lent.
            calls += 1;
            let mut key_id = [0xFF; 32];
            key_id[..2].copy_from_slice(&calls.to_le_bytes());
            let stranger = Lent {
                key_id: &key_id,
                ..lent()
            };
            if let Ok((got, left)) = run(&bytes, &stranger, &table) {
                drafts += usize::from(matches!(got, Got::Draft(_)));
                table = left;
            }
            if dice.below(4) > 0 {
                continue;
            }
            for key_id in [key_id, [dice.below(20) as u8; 32]] {
                if let Ok(left) = withdrawn(THIRD, &key_id, &table) {
                    withdrawals += 1;
                    table = left;
                }
            }
        }
        table
    });
    assert!(drafts > 20 && withdrawals > 5);
    assert_eq!(alone, crowded);
}
