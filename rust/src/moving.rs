//! Lets two machines move the same lists, locks into claims and claims into locks, and compares the refusal, its place, every
//! word of both lists, and what lies around them.

use crate::driver::{Difference, Driver, Guarded, Library, GUARD};
use crate::library::Moved;
use crate::lists::{back, some_export, some_import, Lists, Way};
use crate::random::Random;

/// What moving a list gives back and leaves behind, in the list that is moved too.
#[derive(PartialEq)]
pub struct Moving {
    pub moved: Moved,
    pub locks: Guarded<i64>,
    pub claims: Guarded<u32>,
}

pub fn moving(library: &Library, lists: &Lists) -> Moving {
    let mut locks = Guarded::new(&lists.locks, GUARD.map(i64::from));
    let mut claims = Guarded::new(&lists.claims, GUARD);
    let moved = match lists.way {
        Way::Import => (library.import)(lists.title, locks.words(), claims.lend()),
        Way::Export => (library.export)(lists.title, claims.words(), locks.lend()),
    };
    Moving { moved, locks, claims }
}

impl Driver {
    pub fn moves_alike(&self, lists: &Lists) -> bool {
        moving(&self.ours, lists) == moving(&self.theirs, lists)
    }

    /// What both machines leave, or that they do not agree.
    fn compare_lists(&mut self, lists: &Lists) -> Result<Moving, Difference> {
        let ours = moving(&self.ours, lists);
        if ours != moving(&self.theirs, lists) {
            return Err(Difference::Lists(lists.clone()));
        }
        self.agreed += 1;
        Ok(ours)
    }

    /// A list that is moved, and moved back if it was not refused.
    fn there_and_back(&mut self, random: &mut Random, lists: &Lists) -> Result<(), Difference> {
        let Moving { moved, locks, claims } = self.compare_lists(lists)?;
        if moved == (0, 0) {
            self.compare_lists(&back(random, lists, locks.words(), claims.words()))?;
        }
        Ok(())
    }

    pub fn lists(&mut self, random: &mut Random) -> Result<(), Difference> {
        let imported = some_import(random);
        self.there_and_back(random, &imported)?;
        let exported = some_export(random);
        self.there_and_back(random, &exported)
    }
}
