//! The withdrawal by its C entry: which record goes, each refusal and their order, on tables by hand.

use uaf_peer::Refusal;
use uaf_token::raw;

const UNSET: usize = 77;
const FILL: u8 = 0xEE;
/// The holder's mixed token and a stranger's.
const OWN: [u8; 32] = [0xA0; 32];
const OTHER: [u8; 32] = [0xB0; 32];

fn tlv(tag: u16, value: &[u8]) -> Vec<u8> {
    let length = value.len() as u16;
    [&tag.to_le_bytes(), &length.to_le_bytes(), value].concat()
}

fn record(key_id: u8, mixed: &[u8; 32], name: &str, counter: u32) -> Vec<u8> {
    let children = [
        tlv(0x2E09, &[key_id; 32]),
        tlv(0x2805, mixed),
        tlv(0x2806, name.as_bytes()),
        tlv(0x2E0D, &counter.to_le_bytes()),
    ];
    tlv(0x3802, &children.concat())
}

/// The holder's two, the newer of which has number 3, around a stranger's.
fn some() -> [Vec<u8>; 3] {
    [
        record(1, &OWN, "Ann", 0),
        record(2, &OTHER, "Bob", u32::MAX),
        record(3, &OWN, "Zo\u{eb}", 0),
    ]
}

/// The table left by an output of this length, or the refusal, which changes nothing.
fn withdrawn(mixed: &[u8], key_id: &[u8], table: &[u8], size: usize) -> Result<Vec<u8>, Refusal> {
    let (mut table_out, mut length) = (vec![FILL; size], UNSET);
    let refusal = raw::withdraw(mixed, key_id, table, &mut table_out, &mut length);
    if refusal != 0 {
        assert_eq!(length, UNSET);
        length = 0;
    }
    assert!(table_out[length..].iter().all(|&byte| byte == FILL));
    let again = uaf_token::withdraw(mixed, key_id, table, &mut vec![0; size]);
    table_out.truncate(length);
    assert_eq!(again.unwrap_or(0), length);
    if refusal == 0 {
        Ok(table_out)
    } else {
        assert_eq!(again, Err(uaf_token::refusal_of(refusal)));
        Err(uaf_token::refusal_of(refusal))
    }
}

fn taken(mixed: &[u8], key_id: u8, table: &[u8]) -> Result<Vec<u8>, Refusal> {
    let left = withdrawn(mixed, &[key_id; 32], table, 6912);
    assert_eq!(left, withdrawn(mixed, &[key_id; 32], table, 8000));
    left
}

#[test]
fn one_goes() {
    let [first, stranger, newest] = some();
    let left = taken(&OWN, 3, &some().concat());
    assert_eq!(left, Ok([&first[..], &stranger].concat()));
    assert_eq!(taken(&OWN, 1, &left.unwrap()), Ok(stranger.clone()));
    assert_eq!(
        taken(&OWN, 3, &[newest, stranger.clone()].concat()),
        Ok(stranger)
    );
    assert_eq!(taken(&OWN, 1, &first), Ok(vec![]));
}

#[test]
fn refusal_7() {
    let table = some().concat();
    for (mixed, key_id) in [(&OWN, 9), (&OWN, 2), (&OTHER, 3), (&[3; 32], 3)] {
        assert_eq!(taken(mixed, key_id, &table), Err(Refusal::Withdrawal));
    }
    assert_eq!(taken(&OTHER, 2, &table), Err(Refusal::Withdrawal));
    assert_eq!(taken(&OWN, 1, &table), Err(Refusal::Withdrawal));
    assert_eq!(taken(&OWN, 1, &[]), Err(Refusal::Withdrawal));
}

#[test]
fn refusals_in_their_order() {
    let good = some().concat();
    let bad = &good[1..];
    let (right, short, none) = (&[3; 32][..], &[3; 31][..], &[9; 32][..]);
    for key_id in [right, short, none] {
        for table in [&good[..], bad] {
            let refused = withdrawn(&OWN, key_id, table, 6911);
            assert_eq!(refused, Err(Refusal::Output));
        }
        let refused = withdrawn(&OWN, key_id, bad, 6912);
        assert_eq!(refused, Err(Refusal::Table));
    }
    for length in [0, 31, 33] {
        let (mixed, key_id) = (vec![0xA0; length], vec![3; length]);
        for (mixed, key_id) in [(&mixed[..], right), (&OWN, &key_id), (&mixed, none)] {
            let refused = withdrawn(mixed, key_id, &good, 6912);
            assert_eq!(refused, Err(Refusal::Lent));
        }
    }
}
