//! Registrations since which their holders have made no call: a withdrawal of one is not refused for
//! its record.

use crate::apart::Step;
use crate::calls::WithdrawCall;
use crate::check::{fail, Checked, Checker};
use crate::properties::{STILL_TAKEN, TAKEN_BACK};
use crate::rng::Rng;

/// A mixed token and a KeyID.
pub type Values = ([u8; 32], [u8; 32]);

struct Registration {
    values: Values,
    /// The table that the Register was given, as long as no call was made since.
    former: Option<Vec<u8>>,
}

/// At most one of each holder; the newest comes last.
#[derive(Default)]
pub struct Registered(Vec<Registration>);

impl Registered {
    /// After each call of an afternoon, refused or not.
    pub fn note(&mut self, step: &Step) {
        for one in &mut self.0 {
            one.former = None;
        }
        let mixed = match step.holder {
            Some(mixed) => mixed,
            None => return,
        };
        self.0.retain(|one| one.values.0 != mixed);
        if let Some((key_id, former)) = step.registered() {
            let key_id = key_id.try_into().expect("as a draft was made");
            self.0.push(Registration {
                values: (mixed, key_id),
                former: Some(former.to_vec()),
            });
        }
    }

    /// Whether the last call was such a Register.
    pub fn is_last(&self) -> bool {
        self.0.last().map_or(false, |one| one.former.is_some())
    }

    /// The values of the newest, or of any.
    pub fn some(&self, rng: &mut Rng) -> Option<Values> {
        let newest = self.0.last()?;
        if rng.one_in(2) {
            return Some(newest.values);
        }
        Some(self.0[rng.below(self.0.len())].values)
    }

    /// A withdrawal that is lent the values of one may be refused over its table output alone, and
    /// directly after the Register it gives the former table, byte for byte.
    pub fn check(
        &self,
        checker: &mut Checker,
        call: &WithdrawCall,
        answer: &Result<Vec<u8>, u32>,
    ) -> Checked<()> {
        let lent = (&call.mixed[..], &call.key_id[..]);
        let is_lent = |one: &&Registration| (&one.values.0[..], &one.values.1[..]) == lent;
        let one = match self.0.iter().find(is_lent) {
            Some(one) if *answer != Err(1) => one,
            _ => return Ok(()),
        };
        let (property, holds) = match &one.former {
            Some(former) => (TAKEN_BACK, answer.as_ref() == Ok(former)),
            None => (STILL_TAKEN, answer.is_ok()),
        };
        checker.counts.add_property(property);
        if holds {
            Ok(())
        } else {
            fail(property.into(), call.to_string())
        }
    }
}
