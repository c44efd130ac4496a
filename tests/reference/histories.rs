//! Request 2026-05: the histories of masks that a small press must live through.

use std::sync::OnceLock;

use super::listing::{push_number, push_refusal, Listing};
use super::plan::{read, refuse, Plan, Refusal};

/// "At most 5 nodes and a length of 1 to 4 frames."
const MOST_NODES: usize = 5;
const MOST_FRAMES: usize = 4;
/// The length of the program's histories.
const PRINTED: usize = 3;

/// Whether "every frame has more than half of the nodes working", from power-on.
fn lives(nodes: usize, period: usize, history: &[u8]) -> bool {
    // "n good counts, each R".
    let mut counts = [period; MOST_NODES];
    history.iter().all(|mask| {
        let mut working = 0;
        for (node, count) in counts[..nodes].iter_mut().enumerate() {
            let good = mask >> node & 1 == 0;
            // "A node is working in a frame if it is good in it and its count before was R."
            working += usize::from(good && *count == period);
            // "A bad node's count becomes 0; a good one's rises by 1 up to R."
            *count = if good { period.min(*count + 1) } else { 0 };
        }
        2 * working > nodes
    })
}

/// The histories one after another, "one byte a mask": of all sequences of masks, "ascending as
/// masks with the first frame leading", those that live.
pub fn all(nodes: usize, period: usize, length: usize) -> Vec<u8> {
    let mut list = Vec::new();
    for sequence in 0..1u64 << (nodes * length) {
        let mut history = [0; MOST_FRAMES];
        for (frame, mask) in history[..length].iter_mut().enumerate() {
            let later = length - 1 - frame;
            *mask = (sequence >> (nodes * later) & ((1 << nodes) - 1)) as u8;
        }
        if lives(nodes, period, &history[..length]) {
            list.extend_from_slice(&history[..length]);
        }
    }
    list
}

/// By nodes, period and length, each from 1 on; made once.
type Lists = [[[OnceLock<Vec<u8>>; MOST_FRAMES]; MOST_FRAMES]; MOST_NODES];
static LISTS: Lists =
    [const { [const { [const { OnceLock::new() }; MOST_FRAMES] }; MOST_FRAMES] }; MOST_NODES];

/// The histories of an accepted plan. "11, if the node count or length is outside these limits";
/// "with line 0".
pub fn histories(plan: &Plan, length: usize) -> Result<&'static [u8], Refusal> {
    if plan.nodes > MOST_NODES || length < 1 || length > MOST_FRAMES {
        return refuse(11, 0);
    }
    // A count that fell to 0 is below `length` up to the history's end: a longer period is the
    // same. A test compares them.
    let period = plan.period.min(length);
    let list = &LISTS[plan.nodes - 1][period - 1][length - 1];
    Ok(list.get_or_init(|| all(plan.nodes, period, length)))
}

/// "A program prints those of length 3 for plan.txt, one a line, masks in width 4, or the refusal
/// as a run does."
pub fn text(plan_text: &[u8]) -> Listing {
    let mut bytes = Vec::new();
    let plan = read(plan_text);
    let list = plan.as_ref().map_err(|refusal| *refusal).and_then(|plan| histories(plan, PRINTED));
    for history in list.unwrap_or_default().chunks_exact(PRINTED) {
        history.iter().for_each(|&mask| push_number(&mut bytes, u64::from(mask), 4));
        bytes.push(b'\n');
    }
    if let Err(refusal) = list {
        push_refusal(&mut bytes, refusal);
    }
    let lines = list.map_or(0, |list| list.len() / PRINTED);
    Listing { bytes, lines, accepted: plan.is_ok(), refusal: list.err(), ..Listing::default() }
}
