//! POSIX advisory record locks read as claims, and claims written as such locks.

use crate::answers::{Claim, Lock, NotMoved};
use crate::lent;

/// The claims that these locks are, in a title of so many frames: for [`reserve`](crate::Tables::reserve) on tables of that title.
pub fn import(title: u32, locks: &[Lock]) -> Result<Vec<Claim>, NotMoved> {
    let mut claims = vec![Claim::default(); locks.len()];
    lent::import(title, locks, &mut claims).map(|()| claims)
}

/// The locks of these claims: lengths are positive, and 0 exactly where the claim ends at the title's end. Imported, they are the same
/// claims again.
pub fn export(title: u32, claims: &[Claim]) -> Result<Vec<Lock>, NotMoved> {
    let mut locks = vec![Lock::default(); claims.len()];
    lent::export(title, claims, &mut locks).map(|()| locks)
}
