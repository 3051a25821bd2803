//! Who calls on which table, and the KeyIDs that it may ask for.

use crate::gen_holder::{self, Holder};
use crate::gen_table::{near, Record};
use crate::rng::Rng;

pub struct Scene {
    pub records: Vec<Record>,
    pub holder: Holder,
    mixed: [u8; 32],
}

impl Scene {
    pub fn new(records: Vec<Record>, holder: Holder) -> Scene {
        let mixed = holder.mixed();
        Scene {
            records,
            holder,
            mixed,
        }
    }

    /// A caller of the table: mostly one of the holders that have a record in it.
    pub fn among(rng: &mut Rng, holders: &[Holder], records: Vec<Record>) -> Scene {
        let has_record = |holder: &&Holder| {
            let mixed = holder.mixed();
            records.iter().any(|record| record.mixed == mixed)
        };
        let own: Vec<&Holder> = holders.iter().filter(has_record).collect();
        let any = &holders[rng.below(holders.len())];
        let holder = match rng.below(12) {
            0 => gen_holder::new(rng),
            1 => gen_holder::beside(rng, any),
            2 => any.clone(),
            _ if own.is_empty() => any.clone(),
            _ => rng.pick(&own).clone(),
        };
        Scene::new(records, holder)
    }

    /// A KeyID to ask for: the caller's own, a stranger's, one that is nobody's or nearly one.
    pub fn key_id(&self, rng: &mut Rng) -> [u8; 32] {
        let all: Vec<[u8; 32]> = self.records.iter().map(|r| r.key_id).collect();
        let own: Vec<[u8; 32]> = self
            .records
            .iter()
            .filter(|r| r.mixed == self.mixed)
            .map(|r| r.key_id)
            .collect();
        match rng.below(10) {
            0..=5 if !own.is_empty() => rng.pick(&own),
            6 if !own.is_empty() => {
                let key_id = rng.pick(&own);
                near(rng, &key_id)
            }
            0..=8 if !all.is_empty() => rng.pick(&all),
            _ => rng.array(),
        }
    }

    /// A KeyID for Register: mostly new.
    pub fn new_key_id(&self, rng: &mut Rng) -> [u8; 32] {
        if rng.percent(15) {
            self.key_id(rng)
        } else {
            rng.array()
        }
    }
}
