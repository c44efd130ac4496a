//! What the program behind `check` prints: the recovery period, or the refusal as a run does.

use super::listing::{push_number, push_refusal, Listing};
use super::plan::read;

/// The period in width 4 and a line feed.
pub fn text(plan_text: &[u8]) -> Listing {
    let mut bytes = Vec::new();
    let plan = read(plan_text);
    match &plan {
        Ok(plan) => {
            push_number(&mut bytes, plan.period as u64, 4);
            bytes.push(b'\n');
        }
        Err(refusal) => push_refusal(&mut bytes, *refusal),
    }
    let lines = usize::from(plan.is_ok());
    Listing { bytes, lines, accepted: plan.is_ok(), refusal: plan.err(), ..Listing::default() }
}
