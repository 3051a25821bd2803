//! The commands that the trace gives, from their children.

use crate::bytes::*;

pub fn index() -> Vec<u8> {
    tlv(INDEX, &[0])
}

pub fn challenge() -> Vec<u8> {
    tlv(CHALLENGE, &[0xAA])
}

pub fn token(token: &[u8]) -> Vec<u8> {
    tlv(ACCESS_TOKEN, token)
}

/// Ann's.
pub fn access_token() -> Vec<u8> {
    token(&ANN)
}

pub fn username(name: &[u8]) -> Vec<u8> {
    tlv(USERNAME, name)
}

pub fn attestation(kind: u16) -> Vec<u8> {
    tlv(ATTESTATION_TYPE, &kind.to_le_bytes())
}

pub fn full() -> Vec<u8> {
    attestation(BASIC_FULL)
}

pub fn handle(number: u8) -> Vec<u8> {
    tlv(KEYHANDLE, &key(number))
}

pub fn app_id(app_id: &[u8]) -> Vec<u8> {
    tlv(APPID, app_id)
}

pub fn content(content: &[u8]) -> Vec<u8> {
    tlv(TRANSACTION_CONTENT, content)
}

pub fn get_info() -> Vec<u8> {
    holding(GETINFO, &[])
}

pub fn settings() -> Vec<u8> {
    holding(OPEN_SETTINGS, &[index()])
}

/// A Register with this challenge, name and type, and some more children.
pub fn register_by(
    challenge: Vec<u8>,
    name: &[u8],
    attestation: Vec<u8>,
    more: &[Vec<u8>],
) -> Vec<u8> {
    let children = [
        index(),
        challenge,
        username(name),
        attestation,
        access_token(),
    ];
    holding(REGISTER, &[&children, more].concat())
}

/// Ann's.
pub fn register() -> Vec<u8> {
    register_named(b"Ann")
}

pub fn register_named(name: &[u8]) -> Vec<u8> {
    register_by(challenge(), name, full(), &[])
}

pub fn register_with(more: Vec<u8>) -> Vec<u8> {
    register_by(challenge(), b"Ann", full(), &[more])
}

pub fn register_as(attestation: Vec<u8>) -> Vec<u8> {
    register_by(challenge(), b"Ann", attestation, &[])
}

pub fn sign(more: &[Vec<u8>]) -> Vec<u8> {
    sign_by(challenge(), more)
}

pub fn sign_by(challenge: Vec<u8>, more: &[Vec<u8>]) -> Vec<u8> {
    let children = [index(), challenge, access_token()];
    holding(SIGN, &[&children, more].concat())
}

/// A Deregister with this KeyID, which is of all records if it is empty.
pub fn deregister(key_id: &[u8]) -> Vec<u8> {
    holding(DEREGISTER, &[index(), tlv(KEYID, key_id), access_token()])
}

/// Skippable composites in each other, from level 2 down to this level, which holds the value.
pub fn nested(level: usize, value: &[u8]) -> Vec<u8> {
    (1..level).fold(value.to_vec(), |value, _| tlv(SKIPPED_COMPOSITE, &value))
}
