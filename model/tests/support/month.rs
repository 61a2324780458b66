//! What demand 3 says of one accepted month.

use jurengate_model::demand3::{audit_month, month_uptake};
use jurengate_model::state::State;

/// Checks the month that got `before` and answered `after`: the model's steps, all within the
/// margin, lead from one to the other, and their uptakes and exits add up. Answers 30 × T.
pub fn check_month(site: &[u8], foods: Option<&[u8]>, book: &[u8], before: &State, after: &State) -> u128 {
    let uptake = month_uptake(site, foods, book, before.month).expect("an accepted month has its uptake");
    let (end, flow) = audit_month(site, foods, book, before).expect("the model accepts it too");
    assert_eq!((end, flow.steps, flow.outside), (*after, 180, 0));
    assert_eq!(flow.uptake, uptake);
    for ledger in 0..3 {
        let risen = u128::from(after.ledgers[ledger]) - u128::from(before.ledgers[ledger]);
        assert_eq!(flow.exits[ledger], risen);
    }
    assert_eq!(after.month, before.month + 1);
    uptake
}
