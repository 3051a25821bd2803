//! A command that breaks no rule: its one form, the fields in it, and the holder whose call it is.

use crate::calls::{Marked, WriteCall, GIVEN};
use crate::gen_holder::Holder;
use crate::outcome::number_at;
use crate::tlv::{self, Child, Kind};
use uaf_peer::form_of;

/// The form of a command, if it breaks no rule.
pub fn form(command: &[u8]) -> Option<Vec<u8>> {
    let mut form = Vec::new();
    form_of(command, &mut form).then_some(form)
}

/// The children of a TLV whose lengths are right.
pub fn children_of(bytes: &[u8]) -> Vec<Child> {
    let (mut children, mut place) = (Vec::new(), 4);
    while place < bytes.len() {
        let (value, length) = (place + 4, usize::from(number_at(bytes, place + 2)));
        let tag = number_at(bytes, place);
        children.push(Child::new(tag, &bytes[value..value + length]));
        place = value + length;
    }
    children
}

/// What a writer would be lent to write a command of these children, in whatever order they are.
/// Nothing, if one is no field of a writer.
pub fn fields_of(kind: Kind, children: &[Child]) -> Option<WriteCall> {
    let mut fields = WriteCall::new(kind);
    let given = |value: &[u8]| Marked {
        mark: GIVEN,
        bytes: value.to_vec(),
    };
    for Child { tag, value } in children {
        match *tag {
            tlv::INDEX if *value == [0] => {}
            tlv::APPID => fields.app_id = given(value),
            tlv::CHALLENGE_HASH => fields.challenge = value.clone(),
            tlv::USERNAME => fields.username = value.clone(),
            tlv::ATTESTATION_TYPE => fields.attestation = number_at(value, 0).into(),
            tlv::TRANSACTION_CONTENT => fields.content = given(value),
            tlv::ACCESS_TOKEN => fields.access_token = value.clone(),
            tlv::USERVERIFY_TOKEN => fields.verify_token = given(value),
            tlv::KEYID => fields.key_id = value.clone(),
            tlv::KEYHANDLE => {
                fields.handle_sizes.push(value.len());
                fields.handles.extend(value);
            }
            _ => return None,
        }
    }
    Some(fields)
}

/// The fields of a command, if it breaks no rule.
pub fn fields(command: &[u8]) -> Option<WriteCall> {
    let kind = Kind::of(command)?;
    fields_of(kind, &children_of(&form(command)?))
}

/// The holder that gives these fields. GetInfo and Open settings are nobody's.
pub fn holder_of(fields: &WriteCall) -> Option<Holder> {
    let token = fields.access_token[..].try_into().ok()?;
    let app_id = (fields.app_id.mark == GIVEN).then(|| fields.app_id.bytes.clone());
    Some(Holder { token, app_id })
}

/// The mixed token of the holder whose call it is: of a Register, Sign or Deregister that breaks no
/// rule, whatever it is lent and answers.
pub fn mixed_of(command: &[u8]) -> Option<[u8; 32]> {
    Some(holder_of(&fields(command)?)?.mixed())
}
