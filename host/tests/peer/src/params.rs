//! The children of a command, by the rules under "TLV bytes".

use crate::numbers::{limit, tag, Kind, INDEX, MOST_COMMAND};
use crate::table::KeyIds;
use crate::tlv::{Limit, Run, Tlv};
use Kind::{Deregister, OpenSettings, Register, Sign};

/// A child that commands list.
struct Rule {
    tag: u16,
    limit: Limit,
    /// Every command that lists it must be given it.
    mandatory: bool,
    listed_by: &'static [Kind],
}

const fn rule(tag: u16, limit: Limit, mandatory: bool, listed_by: &'static [Kind]) -> Rule {
    Rule {
        tag,
        limit,
        mandatory,
        listed_by,
    }
}

impl Rule {
    fn is_listed_by(&self, kind: Kind) -> bool {
        self.listed_by.contains(&kind)
    }

    /// Whether the child may have this value: "index 1, its value 0", for the rest the limit.
    fn allows(&self, value: &[u8]) -> bool {
        self.limit.allows(value) && (self.tag != tag::AUTHENTICATOR_INDEX || value == INDEX)
    }
}

/// "Field lengths" and what each command lists. GetInfo lists nothing.
#[rustfmt::skip]
const RULES: [Rule; 10] = [
    rule(tag::AUTHENTICATOR_INDEX, Limit::Exactly(1), true, &[Register, Sign, Deregister, OpenSettings]),
    rule(tag::APPID, limit::APP_ID, false, &[Register, Sign, Deregister]),
    rule(tag::FINAL_CHALLENGE_HASH, limit::CHALLENGE, true, &[Register, Sign]),
    rule(tag::USERNAME, limit::USERNAME, true, &[Register]),
    rule(tag::ATTESTATION_TYPE, Limit::Exactly(2), true, &[Register]),
    rule(tag::KEYHANDLE_ACCESS_TOKEN, limit::ACCESS_TOKEN, true, &[Register, Sign, Deregister]),
    rule(tag::USERVERIFY_TOKEN, Limit::Any, false, &[Register, Sign]),
    rule(tag::TRANSACTION_CONTENT, Limit::Any, false, &[Sign]),
    rule(tag::KEYHANDLE, limit::KEY_ID, false, &[Sign]),
    rule(tag::KEYID, limit::KEY_ID_OR_ALL, true, &[Deregister]),
];

/// The level of a command's children: "The command itself is level 1".
const CHILD: usize = 2;

/// What a command was given.
pub(crate) struct Params<'a> {
    /// One for each rule, in their order; key handles stand apart.
    values: [Option<&'a [u8]>; RULES.len()],
    handles: KeyIds<'a>,
}

impl<'a> Params<'a> {
    pub(crate) fn new() -> Self {
        Params {
            values: [None; RULES.len()],
            handles: KeyIds::new(),
        }
    }

    /// Reads what a command was given; nothing, if a rule under "TLV bytes" is broken.
    pub(crate) fn read(&mut self, kind: Kind, command: &'a [u8]) -> Option<()> {
        if command.len() > MOST_COMMAND {
            return None;
        }
        // "its TLV ends with the lent bytes"
        for child in Run::new(command).sole(kind.command_tag())? {
            self.child(kind, child.ok()?)?;
        }
        self.has_mandatory(kind).then_some(())
    }

    fn child(&mut self, kind: Kind, child: Tlv<'a>) -> Option<()> {
        match self.listed(kind, child.tag) {
            Some((rule, _)) if !rule.allows(child.value) => None,
            // "at most 8 of them"
            Some((rule, _)) if rule.tag == tag::KEYHANDLE => {
                self.handles.push(child.value.try_into().ok()?)
            }
            // "A listed child is given at most once, KEYHANDLE excepted"
            Some((_, given)) => given.replace(child.value).is_none().then_some(()),
            // "refused if critical, else skipped, but a skipped composite must still be well
            // formed"
            None => (!child.is_critical() && child.is_well_formed(CHILD)).then_some(()),
        }
    }

    /// The rule by which this command lists the tag, with the place for the value.
    fn listed(&mut self, kind: Kind, tag: u16) -> Option<(&'static Rule, &mut Option<&'a [u8]>)> {
        RULES
            .iter()
            .zip(&mut self.values)
            .find(|(rule, _)| rule.tag == tag && rule.is_listed_by(kind))
    }

    fn has_mandatory(&self, kind: Kind) -> bool {
        RULES
            .iter()
            .zip(&self.values)
            .filter(|(rule, _)| rule.mandatory && rule.is_listed_by(kind))
            .all(|(_, value)| value.is_some())
    }

    /// A child's value, empty where an optional one is absent.
    pub(crate) fn value(&self, tag: u16) -> &'a [u8] {
        RULES
            .iter()
            .zip(&self.values)
            .find(|(rule, _)| rule.tag == tag)
            .and_then(|(_, value)| *value)
            .unwrap_or_default()
    }

    /// The key handles, each of which "carries a KeyID".
    pub(crate) fn handles(&self) -> &KeyIds<'a> {
        &self.handles
    }
}
