//! Document 01's short table and plan K, cams, agreements, presses of one and two nodes, fault
//! histories, ties at the plane, the mailbox card, and refusals worked out by hand, and the premise
//! of demand 3.

use std::collections::{BTreeMap, BTreeSet};

use super::calls;
use super::card::Card;
use super::cases::{case, class_of, histories_case, CLASSES, HISTORIES_CLASSES};
use super::check;
use super::frame::{
    cam, cam_entry, fault_length, holders, limit, message_length, most_held, plane, task_result,
    Memory, System,
};
use super::generate::plan_text;
use super::histories;
use super::listing::listing;
use super::plan::{parse, read, refuse, Action, Plan, Row, LINE};

const K: [Row; 7] = [
    [0, 3, 2, 2, 1, 1],
    [1, 0, 0, 0, 0, 0],
    [1, 1, 0, 0, 0, 0],
    [10, 0, 0, 0, 0, 0],
    [11, 1, 1, 0, 1, 0],
    [20, 1, 1, 0, 0, 0],
    [30, 0, 1, 0, 0, 0],
];

const ONE_CELL: [Row; 4] =
    [[0, 3, 1, 1, 1, 1], [1, 0, 0, 0, 0, 0], [10, 0, 0, 0, 0, 0], [30, 0, 0, 0, 0, 0]];

/// The position of a cutter into cell 0, its cam into cell 1.
const CUTTER: [Row; 6] = [
    [0, 3, 1, 2, 1, 1],
    [1, 0, 0, 0, 0, 0],
    [1, 1, 0, 0, 0, 0],
    [10, 0, 0, 0, 0, 0],
    [16, 0, 1, 0, 0, 0],
    [30, 0, 1, 0, 0, 0],
];

const NAN: u64 = 0x7FF8_0000_0000_0000;
const MINUS: u64 = 1 << 63;
/// What a bad node with all bytes 255 puts out.
const ONES: u64 = u64::MAX;

fn k() -> Plan {
    read(&plan_text(&K)).unwrap()
}

fn with(rows: &[Row], line: usize, row: Row) -> Vec<Row> {
    let mut rows = rows.to_vec();
    rows.insert(line - 1, row);
    rows
}

fn without(rows: &[Row], line: usize) -> Vec<Row> {
    let mut rows = rows.to_vec();
    rows.remove(line - 1);
    rows
}

/// Rows with the columns of one line replaced.
fn changed(rows: &[Row], line: usize, columns: &[(usize, u64)]) -> Vec<Row> {
    let mut rows = rows.to_vec();
    columns.iter().for_each(|&(column, value)| rows[line - 1][column] = value);
    rows
}

/// A text with the columns of one line replaced by bytes, right-justified.
fn text_with(rows: &[Row], line: usize, column: usize, bytes: &str) -> Vec<u8> {
    let mut text = plan_text(rows);
    let end = (line - 1) * LINE + [4, 8, 12, 16, 36, 56][column];
    text[end - bytes.len()..end].copy_from_slice(bytes.as_bytes());
    text
}

/// The number and line that a text is refused with; 0 0 if it is accepted.
fn refusal(text: &[u8]) -> (u64, usize) {
    read(text).map_or_else(|refusal| (refusal.number, refusal.line), |_| (0, 0))
}

fn refused(rows: &[Row]) -> (u64, usize) {
    refusal(&plan_text(rows))
}

fn period(rows: &[Row]) -> Option<usize> {
    read(&plan_text(rows)).ok().map(|plan| plan.period)
}

/// A mailbox of bins with a counter and the same pattern in all cells.
fn mailbox(plan: &Plan, bins: &[(u16, u64)]) -> Vec<u8> {
    let mut bytes = Vec::new();
    for &(counter, pattern) in bins {
        bytes.extend_from_slice(&counter.to_be_bytes());
        (0..plan.cells).for_each(|_| bytes.extend_from_slice(&pattern.to_be_bytes()));
    }
    bytes
}

/// The counter after a vote of K's nodes, whose F is 2.
fn voted_counter(own: u16, counters: [u16; 3]) -> u16 {
    let plan = k();
    let mut memory = Memory { counter: own, cells: vec![0, 0] };
    memory.vote(&plan, &mailbox(&plan, &counters.map(|counter| (counter, 0))));
    memory.counter
}

#[test]
fn rows_1_to_5_recovery_periods() {
    assert_eq!(period(&K), Some(3));
    assert_eq!(refused(&without(&K, 6)), (6, 0));
    assert_eq!(period(&changed(&K, 6, &[(1, 0)])), Some(3));
    assert_eq!(period(&ONE_CELL), Some(2));
    assert_eq!(period(&with(&ONE_CELL, 4, [20, 0, 0, 0, 0, 0])), Some(1));
}

#[test]
fn rows_6_to_8_counters() {
    assert_eq!(voted_counter(1, [1, 1, 9]), 1);
    assert_eq!(voted_counter(0, [1, 1, 9]), 1);
    assert_eq!(voted_counter(0, [1, 0, 9]), 0);
    assert_eq!(voted_counter(1, [5, 5, 1]), 1);
}

#[test]
fn row_9_half_of_four_is_no_majority() {
    let four = read(&plan_text(&changed(&K, 1, &[(1, 4)]))).unwrap();
    let mut memory = Memory { counter: 0, cells: vec![7, 9] };
    memory.vote(&four, &mailbox(&four, &[(0, 0), (0, 0), (0, MINUS), (0, MINUS)]));
    assert_eq!(memory.cells, [7, 9]);
    memory.vote(&four, &mailbox(&four, &[(0, 0), (0, NAN), (0, NAN), (0, NAN)]));
    assert_eq!(memory.cells, [7, NAN]);
}

/// "Plane cases 10 and 11 of document 01 now hold for a remembered 3."
#[test]
fn rows_10_and_11_plane() {
    assert_eq!(plane(&[7, 8, 9], 3), 7);
    assert_eq!(plane(&[4, 5, 5, 4, 6], 3), 4);
    assert_eq!(plane(&[4, 5, 5, 6, 5], 3), 5);
    assert_eq!(plane(&[0, MINUS, MINUS], 3), MINUS);
}

/// "Of tied values the remembered one wins; if it isn't among them, the old rule decides." One that
/// fewer nodes put out is not among the tied ones.
#[test]
fn plane_that_remembers() {
    assert_eq!([7, 8, 9, 10].map(|handed| plane(&[7, 8, 9], handed)), [7, 8, 9, 7]);
    assert_eq!([4, 5, 6].map(|handed| plane(&[4, 5, 5, 4, 6], handed)), [4, 5, 4]);
    assert_eq!([4, 5, 6].map(|handed| plane(&[4, 5, 5, 6, 5], handed)), [5; 3]);
    assert_eq!([1, 2, 3].map(|handed| plane(&[1, 1, 2, 2], handed)), [1, 2, 1]);
    assert_eq!([1, 2, 3].map(|handed| plane(&[3, 1, 2, 2, 1, 3], handed)), [1, 2, 3]);
    assert_eq!([1, 2, 3].map(|handed| plane(&[1, 2, 3, 2, 1], handed)), [1, 2, 1]);
    // By bits: +0 is not -0, and a NaN is itself and no other.
    assert_eq!([0, MINUS].map(|handed| plane(&[0, 0, MINUS, MINUS], handed)), [0, MINUS]);
    assert_eq!([0, MINUS].map(|handed| plane(&[7, 7, MINUS, MINUS], handed)), [7, MINUS]);
    assert_eq!([NAN, NAN | 1].map(|handed| plane(&[7, 7, NAN, NAN], handed)), [NAN, 7]);
}

/// All lists of up to six nodes that put out three values, with each of these remembered or another
/// one: what is handed on has the most holders, and where it is not the remembered value, more than
/// that one; then it is the old rule's.
#[test]
fn planes_of_all_small_lists() {
    let (mut kept, mut given_up) = (0, 0);
    for (nodes, list) in (1..=6).flat_map(|nodes| (0..3u64.pow(nodes)).map(move |l| (nodes, l))) {
        let values: Vec<_> = (0..nodes).map(|node| list / 3u64.pow(node) % 3).collect();
        let most = (0..3).map(|value| holders(&values, value)).max().unwrap();
        for remembered in 0..=3 {
            let value = plane(&values, remembered);
            assert_eq!(holders(&values, value), most);
            if value != remembered {
                assert!(holders(&values, remembered) < most);
                let lowest = values.iter().find(|&&value| holders(&values, value) == most);
                assert_eq!((Some(&value), value), (lowest, most_held(&values).1));
            }
            kept += usize::from(value == remembered && value != most_held(&values).1);
            given_up += usize::from(value != remembered && holders(&values, remembered) > 0);
        }
    }
    assert!(kept > 100 && given_up > 100);
}

#[test]
fn row_12_limit_of_nan() {
    let [one, two] = [1.0f64.to_bits(), 2.0f64.to_bits()];
    assert_eq!(limit(NAN, one, two), one);
    assert_eq!(limit(u64::MAX, one, two), one);
    assert_eq!(limit(3.0f64.to_bits(), one, two), two);
    assert_eq!(limit(MINUS, 0, 0), MINUS);
}

#[test]
fn row_13_counter_65535() {
    let plan = k();
    let mut memory = Memory { counter: 65_535, cells: vec![1.0f64.to_bits(), 2.0f64.to_bits()] };
    memory.compute(&plan, &[0]);
    let mut message = vec![255; message_length(&plan)];
    memory.message(&plan, &mut message);
    assert_eq!(memory.cells, [1.0f64.to_bits(), 3.0f64.to_bits()]);
    // Cell 0 is not voted in frame 1 and is sent as zero.
    let sent = [&[0; 10], &3.0f64.to_be_bytes()[..]].concat();
    assert_eq!(message, sent);
}

/// "So entries 0, 256 and 512 are 0, 32,768 and 65,536."
#[test]
fn entries_of_the_cam() {
    assert_eq!([0, 256, 512].map(cam_entry), [0, 32_768, 65_536]);
    // 2558 / 2048, 7152 / 2048, 14,794 / 2048; 66,716,674 / 2048, 134,217,218 / 2048.
    assert_eq!([1, 2, 3, 255, 511].map(cam_entry), [1, 3, 7, 32_576, 65_535]);
    for i in 0..=512 {
        let rest = 1536 * i * i - 2 * i * i * i + 1024 - 2048 * cam_entry(i as u64) as i64;
        assert!((0..2048).contains(&rest), "entry {i}");
    }
}

/// "Takes the entry at the whole part, as a float. Below 0 or NaN gives entry 0; above 512 gives
/// entry 512."
#[test]
fn positions_of_a_cam() {
    let next = |position: f64| f64::from_bits(position.to_bits() + 1);
    let before = |position: f64| f64::from_bits(position.to_bits() - 1);
    let gives = |positions: &[f64], entry: f64| {
        for position in positions {
            assert_eq!(cam(position.to_bits()), entry.to_bits(), "{position}");
        }
    };
    // The patterns next to those of the two zeros are the least values above and below 0.
    gives(&[-0.0, next(-0.0), -0.5, -1.0, -256.0, -1e300, f64::NEG_INFINITY], 0.0);
    gives(&[0.0, next(0.0), 0.25, 0.5, before(1.0)], 0.0);
    gives(&[1.0, 1.5, before(2.0)], 1.0);
    gives(&[2.0, 2.75], 3.0);
    gives(&[255.0, 255.5, before(256.0)], 32_576.0);
    gives(&[256.0, next(256.0)], 32_768.0);
    gives(&[511.0, 511.5, 511.99, before(512.0)], 65_535.0);
    gives(&[512.0, next(512.0), 512.5, 513.0, 65_536.0, 1e300, f64::INFINITY], 65_536.0);
    for nan in [NAN, NAN | MINUS, 0x7FF << 52 | 1, u64::MAX] {
        assert_eq!(cam(nan), 0, "{nan:x}");
    }
}

#[test]
fn recovery_with_cams() {
    // A cam reads cell a only: its target need not be known.
    assert_eq!(period(&CUTTER), Some(2));
    // The cam stands before the Take.
    assert_eq!(period(&with(&without(&CUTTER, 5), 4, CUTTER[4])), Some(3));
    // A cam of a cell that is never known.
    assert_eq!(refused(&changed(&ONE_CELL, 3, &[(0, 16)])), (6, 0));
    assert_eq!(refused(&changed(&CUTTER, 5, &[(3, 1)])), (6, 0));
    let voted = with(&changed(&CUTTER, 5, &[(3, 1)]), 6, [20, 0, 1, 0, 0, 0]);
    assert_eq!(period(&voted), Some(2));
    // The Take in frame 0, the cam in frame 1; its cell voted there or not.
    let cam = changed(&K, 5, &[(0, 16), (4, 0)]);
    assert_eq!(period(&cam), Some(3));
    assert_eq!(period(&without(&cam, 6)), Some(4));
}

/// Voted cells are those of the frame before the voted counter, not of the node's own.
#[test]
fn votes_of_the_resulting_counter() {
    let plan = read(&plan_text(&with(&K, 6, [20, 0, 0, 0, 0, 0]))).unwrap();
    let mut memory = Memory { counter: 0, cells: vec![7, 9] };
    memory.vote(&plan, &mailbox(&plan, &[(1, 5), (1, 5), (0, 5)]));
    assert_eq!((memory.counter, memory.cells), (1, vec![5, 9]));
}

/// Plan K with `nodes` nodes; also with a vote of cell 0 in frame 0.
fn k_of(nodes: u64, both_voted: bool) -> Plan {
    let rows = changed(&K, 1, &[(1, nodes)]);
    let rows = if both_voted { with(&rows, 6, [20, 0, 0, 0, 0, 0]) } else { rows };
    read(&plan_text(&rows)).unwrap()
}

/// A message with a counter and two cells.
fn message(counter: u16, cells: [u64; 2]) -> [u8; 18] {
    let mut bytes = [0; 18];
    bytes[..2].copy_from_slice(&counter.to_be_bytes());
    bytes[2..10].copy_from_slice(&cells[0].to_be_bytes());
    bytes[10..].copy_from_slice(&cells[1].to_be_bytes());
    bytes
}

/// Counter, cells and agreement after a vote over bins of a counter and two cells, by a node with
/// its own counter and the cells 70 and 90.
fn voted(plan: &Plan, own: u16, bins: &[(u16, [u64; 2])]) -> (u16, [u64; 2], usize) {
    let mut memory = Memory { counter: own, cells: vec![70, 90] };
    let bins: Vec<_> = bins.iter().map(|&(counter, cells)| message(counter, cells)).collect();
    let agreement = memory.vote(plan, &bins.concat());
    (memory.counter, [memory.cells[0], memory.cells[1]], agreement)
}

fn agreement(plan: &Plan, own: u16, bins: &[(u16, [u64; 2])]) -> usize {
    voted(plan, own, bins).2
}

/// "How many bins hold it"; "the least such count over its counter and voted cells". Counter 0 is
/// after frame 1, in which K votes cell 1.
#[test]
fn agreement_is_the_least_count() {
    let five = k_of(5, false);
    let vote = |counters: [u16; 5], cells: [u64; 5]| {
        let bins = [0, 1, 2, 3, 4].map(|bin| (counters[bin], [bin as u64, cells[bin]]));
        agreement(&five, 0, &bins)
    };
    assert_eq!(vote([0; 5], [7; 5]), 5);
    assert_eq!(vote([0; 5], [7, 7, 8, 7, 7]), 4);
    assert_eq!(vote([0, 0, 0, 9, 0], [7; 5]), 4);
    assert_eq!(vote([0, 0, 0, 9, 0], [7, 7, 7, 8, 9]), 3);
    assert_eq!(vote([0, 0, 0, 1, 1], [7, 7, 8, 7, 7]), 3);
    assert_eq!(vote([1, 1, 0, 0, 0], [8, 7, 7, 7, 7]), 3);
    // The first bin holds no voted value.
    assert_eq!(vote([9, 0, 0, 0, 0], [1, 2, 7, 7, 7]), 3);
    assert_eq!(vote([0; 5], [NAN, NAN, NAN, NAN, NAN | 1]), 4);
}

/// "0 where no value has more than half": a cell too, which then stays.
#[test]
fn half_is_no_agreement() {
    let four = k_of(4, false);
    let vote = |counters: [u16; 4], cells: [u64; 4]| {
        agreement(&four, 0, &[0, 1, 2, 3].map(|bin| (counters[bin], [0, cells[bin]])))
    };
    assert_eq!(vote([0, 0, 1, 1], [7; 4]), 0);
    assert_eq!(vote([0; 4], [7, 7, 8, 8]), 0);
    assert_eq!(vote([0; 4], [0, 0, MINUS, MINUS]), 0);
    assert_eq!(vote([0; 4], [7, 7, 8, 9]), 0);
    assert_eq!(vote([0; 4], [1, 2, 3, 4]), 0);
    assert_eq!(vote([0; 4], [7, 8, 7, 7]), 3);
    assert_eq!(agreement(&k(), 0, &[(0, [0, 7]), (0, [0, 8]), (0, [0, 9])]), 0);
}

/// A voted counter >= F is not taken, and its holders count.
#[test]
fn agreement_on_a_counter_past_the_frames() {
    let [seven, eight] = [[0, 7], [0, 8]];
    assert_eq!(agreement(&k(), 1, &[(5, seven), (5, seven), (1, seven)]), 2);
    assert_eq!(agreement(&k(), 1, &[(2, seven), (2, eight), (2, [0, 9])]), 3);
    // The own counter 0 stays: cell 1 is voted.
    assert_eq!(agreement(&k(), 0, &[(5, seven), (5, seven), (5, seven)]), 3);
    assert_eq!(agreement(&k(), 0, &[(5, seven), (5, seven), (5, eight)]), 2);
    assert_eq!(agreement(&k(), 0, &[(5, seven), (5, eight), (5, [0, 9])]), 0);
    // An own counter of 7 is after frame 0 too, one of 6 after frame 1.
    assert_eq!(agreement(&k(), 7, &[(5, seven), (5, eight), (5, [0, 9])]), 3);
    assert_eq!(agreement(&k(), 6, &[(5, seven), (5, eight), (5, [0, 9])]), 0);
}

/// The voted cells are those of the frame before the resulting counter.
#[test]
fn agreement_on_the_cells_of_the_resulting_counter() {
    let plan = k_of(3, true);
    let bins = |counter: u16| [(counter, [5, 1]), (counter, [5, 2]), (counter, [6, 3])];
    assert_eq!((agreement(&plan, 0, &bins(1)), agreement(&plan, 1, &bins(1))), (2, 2));
    assert_eq!((agreement(&plan, 0, &bins(0)), agreement(&plan, 1, &bins(0))), (0, 0));
    // No counter is voted, which is 0 whatever the cells are.
    assert_eq!(agreement(&plan, 1, &[(1, [5, 5]), (0, [5, 5]), (9, [5, 5])]), 0);
    // K votes no cell in frame 0: the counter's count alone.
    assert_eq!(agreement(&k(), 0, &bins(1)), 3);
    assert_eq!(agreement(&k(), 0, &[(1, [5, 1]), (1, [5, 2]), (0, [6, 3])]), 2);
    assert_eq!(agreement(&k(), 1, &[(1, [5, 5]), (0, [5, 5]), (9, [5, 5])]), 0);
}

/// What a bad node sends to a receiver.
type Sent = (usize, usize, u16, [u64; 2]);

/// The agreement of a frame; the other messages of bad nodes are zero bytes.
fn frame_agreement(plan: &Plan, system: &mut System, mask: u64, sent: &[Sent]) -> usize {
    let mut faults = vec![0; fault_length(plan)];
    for &(sender, receiver, counter, cells) in sent {
        let at = sender * faults.len() / plan.nodes + (1 + receiver) * 18;
        faults[at..at + 18].copy_from_slice(&message(counter, cells));
    }
    system.frame(plan, &[1.0f64.to_bits()], mask, &faults, &mut [0]).1
}

/// "The least over the good nodes": node 4 of five is bad and tells each receiver something else.
/// All others send counter 1 and no cell in frame 0, then counter 0 and cell 1.
#[test]
fn agreement_by_receiver() {
    let plan = k_of(5, false);
    let first = |counters: [u16; 5]| {
        let sent = [0, 1, 2, 3, 4].map(|to| (4, to, counters[to], [0, 0]));
        frame_agreement(&plan, &mut System::power_on(&plan), 16, &sent)
    };
    assert_eq!(first([1, 1, 1, 1, 1]), 5);
    assert_eq!(first([1, 1, 1, 1, 9]), 5);
    assert_eq!(first([9, 1, 1, 1, 1]), 4);
    assert_eq!(first([1, 1, 0, 1, 1]), 4);
    assert_eq!(first([1, 1, 1, 9, 1]), 4);
    assert_eq!(first([9, 9, 9, 9, 1]), 4);
    let one = 1.0f64.to_bits();
    let second = |cells: [u64; 5]| {
        let mut system = System::power_on(&plan);
        assert_eq!(frame_agreement(&plan, &mut system, 0, &[]), 5);
        let sent = [0, 1, 2, 3, 4].map(|to| (4, to, 0, [9, cells[to]]));
        frame_agreement(&plan, &mut system, 16, &sent)
    };
    assert_eq!(second([one; 5]), 5);
    assert_eq!(second([one, one, one, one, 0]), 5);
    assert_eq!(second([one, 0, one, one, one]), 4);
}

/// What a bad node hears counts for nothing, however little agrees in it.
#[test]
fn bad_nodes_have_no_agreement() {
    let plan = k_of(5, false);
    let to = |sender: usize, counters: [u16; 5]| {
        [0, 1, 2, 3, 4].map(|to| (sender, to, counters[to], [0, 0]))
    };
    // Nodes 3 and 4 are bad and hear 1 1 1 9 9; then they hear 1 only, and node 2 one 9.
    let mut system = System::power_on(&plan);
    let sent = [to(3, [1, 1, 1, 9, 9]), to(4, [1, 1, 1, 9, 9])].concat();
    assert_eq!(frame_agreement(&plan, &mut system, 24, &sent), 5);
    let mut system = System::power_on(&plan);
    let sent = [to(3, [1, 1, 9, 1, 1]), to(4, [1, 1, 1, 1, 1])].concat();
    assert_eq!(frame_agreement(&plan, &mut system, 24, &sent), 4);
    // "0 if all are bad", though all of them send the same.
    let sent = [0, 1, 2, 3, 4].map(|sender| to(sender, [1; 5])).concat();
    assert_eq!(frame_agreement(&plan, &mut system, 31, &sent), 0);
    let mut system = System::power_on(&plan);
    assert_eq!(frame_agreement(&plan, &mut system, 30, &sent), 5);
}

/// Good nodes count, whether they work or not.
#[test]
fn agreement_of_nodes_that_do_not_work() {
    let plan = k_of(5, false);
    let sent = [(4, 0, 1, [0, 0]), (4, 1, 1, [0, 0]), (4, 2, 1, [0, 0]), (4, 3, 9, [0, 0])];
    for counts in [[3, 3, 3, 1, 3], [3, 3, 3, 3, 0], [0, 0, 0, 2, 0]] {
        let mut system = System::power_on(&plan);
        system.counts = counts.to_vec();
        assert_eq!(frame_agreement(&plan, &mut system, 16, &sent), 4);
    }
    let mut system = System::power_on(&plan);
    system.counts = vec![0; 5];
    assert_eq!(frame_agreement(&plan, &mut system, 0, &[]), 5);
}

/// Nodes 0 and 1 of three are good and a frame apart: node 0 sends counter 1 and no cell, node 1
/// counter 0 and cell 1, which is 2. Node 2 can side with either.
#[test]
fn agreement_where_good_nodes_take_other_counters() {
    let plan = k();
    let [one, two] = [1.0f64.to_bits(), 2.0f64.to_bits()];
    let vote = |to_0: u16, to_1: u16, cell: u64| {
        let mut system = System::power_on(&plan);
        system.memories[1] = Memory { counter: 1, cells: vec![one, one] };
        let sent = [(2, 0, to_0, [0, 0]), (2, 1, to_1, [0, cell])];
        let agreement = frame_agreement(&plan, &mut system, 4, &sent);
        ([0, 1].map(|node| system.memories[node].counter), agreement)
    };
    // Node 0 votes no cell; node 1 votes cell 1 over the bins 0, 2 and what node 2 sends.
    assert_eq!(vote(1, 0, two), ([1, 0], 2));
    assert_eq!(vote(1, 0, 0), ([1, 0], 2));
    assert_eq!(vote(1, 0, one), ([1, 0], 0));
    assert_eq!(vote(1, 1, one), ([1, 1], 2));
    // Node 0 hears the counters 1, 0 and 9.
    assert_eq!(vote(9, 1, one), ([1, 1], 0));
}

/// "Headers with 1 or 2 nodes were refused with 3 and are now accepted."
#[test]
fn headers_of_one_and_two_nodes() {
    let header = |nodes: u64| refused(&changed(&K, 1, &[(1, nodes)]));
    assert_eq!([1, 2, 3, 7].map(header), [(0, 0); 4]);
    assert_eq!([0, 8, 9, 257, 258, 9999].map(header), [(3, 1); 6]);
    // R comes "from the plan only": the nodes make no difference to it.
    for nodes in [1, 2] {
        let rows = changed(&K, 1, &[(1, nodes)]);
        assert_eq!(period(&rows), Some(3));
        assert_eq!(refused(&without(&rows, 6)), (6, 0));
        assert_eq!(period(&changed(&ONE_CELL, 1, &[(1, nodes)])), Some(2));
        assert_eq!(refused(&changed(&rows, 1, &[(2, 0)])), (3, 1));
        assert_eq!(refused(&without(&rows, 7)), (4, 7));
        assert_eq!(refused(&changed(&rows, 4, &[(2, 2)])), (5, 4));
    }
    // n x (2 + 8C), n x ((n + 1) x (2 + 8C) + 8A).
    let lengths = |nodes: u64| {
        let plan = Some(k_of(nodes, false));
        (calls::mailbox_size(plan.as_ref()), calls::faults_size(plan.as_ref()))
    };
    assert_eq!([1, 2, 3].map(lengths), [(18, 44), (36, 124), (54, 240)]);
}

/// More than half of one is one: the bin is taken, whatever it holds.
#[test]
fn a_vote_of_one_bin() {
    let one = k_of(1, false);
    assert_eq!(voted(&one, 0, &[(0, [5, 7])]), (0, [70, 7], 1));
    assert_eq!(voted(&one, 1, &[(0, [5, NAN])]), (0, [70, NAN], 1));
    // Counter 1 is after frame 0, in which K votes no cell.
    assert_eq!(voted(&one, 0, &[(1, [5, 7])]), (1, [70, 90], 1));
    // A counter >= F: the own one stays.
    assert_eq!(voted(&one, 1, &[(5, [5, 7])]), (1, [70, 90], 1));
    assert_eq!(voted(&one, 0, &[(5, [5, 7])]), (0, [70, 7], 1));
}

/// "More than half of two is two": with one, counter and cell stay as they are.
#[test]
fn a_vote_of_two_bins() {
    let two = k_of(2, false);
    assert_eq!(voted(&two, 1, &[(0, [5, 7]), (0, [6, 7])]), (0, [70, 7], 2));
    assert_eq!(voted(&two, 0, &[(0, [5, NAN]), (0, [5, NAN])]), (0, [70, NAN], 2));
    assert_eq!(voted(&two, 0, &[(1, [5, 7]), (1, [6, 8])]), (1, [70, 90], 2));
    assert_eq!(voted(&two, 1, &[(5, [5, 7]), (5, [6, 8])]), (1, [70, 90], 2));
    // The cells differ, the two zeros too.
    assert_eq!(voted(&two, 1, &[(0, [5, 7]), (0, [5, 8])]), (0, [70, 90], 0));
    assert_eq!(voted(&two, 0, &[(0, [5, 0]), (0, [5, MINUS])]), (0, [70, 90], 0));
    assert_eq!(voted(&two, 0, &[(0, [5, 90]), (0, [5, 8])]), (0, [70, 90], 0));
    // The counters differ: the own one stays, and the cells of the frame before it are voted.
    let bins = [(0, [5, 7]), (1, [5, 7])];
    assert_eq!(voted(&two, 0, &bins), (0, [70, 7], 0));
    assert_eq!(voted(&two, 1, &bins), (1, [70, 90], 0));
    assert_eq!(voted(&two, 9, &bins), (9, [70, 90], 0));
    assert_eq!(voted(&k_of(2, true), 1, &bins), (1, [5, 90], 0));
}

/// Of one its value, whatever is remembered; of two that differ the remembered one if either puts
/// it out, else node 0's.
#[test]
fn plane_of_one_and_two_nodes() {
    for handed in [7, 0, MINUS, NAN] {
        assert_eq!([7, 0, MINUS, NAN].map(|value| plane(&[value], handed)), [7, 0, MINUS, NAN]);
        assert_eq!([7, 0, MINUS, NAN].map(|value| plane(&[value; 2], handed)), [7, 0, MINUS, NAN]);
    }
    assert_eq!([3, 7, 8].map(|handed| plane(&[7, 8], handed)), [7, 7, 8]);
    assert_eq!([3, 7, 8].map(|handed| plane(&[8, 7], handed)), [8, 7, 8]);
    assert_eq!([3, 0, MINUS].map(|handed| plane(&[0, MINUS], handed)), [0, 0, MINUS]);
    assert_eq!([3, 0, MINUS].map(|handed| plane(&[MINUS, 0], handed)), [MINUS, 0, MINUS]);
    assert_eq!([3, 0, MINUS].map(|handed| plane(&[MINUS, 7], handed)), [MINUS; 3]);
    assert_eq!([3, 7, NAN].map(|handed| plane(&[NAN, 7], handed)), [NAN, 7, NAN]);
}

/// What a bad node of K does in a frame: its memory after it, the message it sends to all, its
/// setpoint.
type Fault = ((u16, [u64; 2]), (u16, [u64; 2]), u64);

/// The plane's value, the number of working nodes and the agreement of a frame of K.
fn faulty_frame(
    plan: &Plan,
    system: &mut System,
    sensor: u64,
    mask: u64,
    fault: Fault,
) -> (u64, usize, usize) {
    let ((counter, cells), sent, setpoint) = fault;
    let mut bytes = message(counter, cells).to_vec();
    (0..plan.nodes).for_each(|_| bytes.extend_from_slice(&message(sent.0, sent.1)));
    bytes.extend_from_slice(&u64::to_be_bytes(setpoint));
    let (faults, mut place) = (bytes.repeat(plan.nodes), [0]);
    let (working, agreement) = system.frame(plan, &[sensor], mask, &faults, &mut place);
    (place[0], working, agreement)
}

/// The one node is bad: the plane hands on its setpoint, and "0 if all are bad".
#[test]
fn a_frame_of_one_bad_node() {
    let plan = k_of(1, false);
    let mut system = System::power_on(&plan);
    let fault = ((9, [3, 8]), (1, [0, 0]), 6);
    assert_eq!(faulty_frame(&plan, &mut system, 5, 1, fault), (6, 0, 0));
    assert_eq!(system.memories, [Memory { counter: 9, cells: vec![3, 8] }]);
    assert_eq!(system.counts, [0]);
    // 9 mod 2 is 1: it runs the Sum, of the least values above 0, and hears itself.
    assert_eq!(faulty_frame(&plan, &mut system, 5, 0, fault), (11, 0, 1));
    assert_eq!(system.memories, [Memory { counter: 0, cells: vec![3, 11] }]);
    assert_eq!(system.counts, [1]);
}

/// One of two nodes is bad in frame 1, after a good frame 0 that handed on 0. The good one has
/// counter 0, cells 1 and 1 and sends cell 1; the bad one puts out 6.
#[test]
fn a_frame_of_two_nodes_with_a_bad_one() {
    let plan = k_of(2, false);
    let [one, two] = [1.0f64, 2.0].map(f64::to_bits);
    let frame = |mask: u64, sent: (u16, [u64; 2]), setpoint: u64| {
        let mut system = System::power_on(&plan);
        let fault = ((9, [3, 8]), sent, setpoint);
        assert_eq!(faulty_frame(&plan, &mut system, one, 0, fault), (0, 2, 2));
        let given = faulty_frame(&plan, &mut system, one, mask, fault);
        for node in 0..2 {
            let (bad, left) = (mask >> node & 1 == 1, &system.memories[node]);
            let [counter, first, second] = if bad { [9, 3, 8] } else { [0, one, one] };
            assert_eq!((u64::from(left.counter), &left.cells[..]), (counter, &[first, second][..]));
            assert_eq!(system.counts[node], if bad { 0 } else { 3 });
        }
        given
    };
    // Node 0 is bad: its value, as nobody puts out 0; no cell has more than half, and no counter.
    assert_eq!(frame(1, (0, [0, two]), 6), (6, 1, 0));
    assert_eq!(frame(1, (1, [0, one]), 6), (6, 1, 0));
    // Node 1 is bad: node 0's own.
    assert_eq!(frame(2, (0, [0, two]), 6), (one, 1, 0));
    assert_eq!(frame(2, (1, [0, one]), 6), (one, 1, 0));
    // The bad one puts out the 0 that was handed on before: it stays; -0 is another value.
    assert_eq!(frame(1, (0, [0, two]), 0), (0, 1, 0));
    assert_eq!(frame(2, (0, [0, two]), 0), (0, 1, 0));
    assert_eq!(frame(2, (0, [0, one]), 0), (0, 1, 2));
    assert_eq!(frame(2, (0, [0, two]), MINUS), (one, 1, 0));
    // Its bytes agree; the cell that is not voted may differ.
    assert_eq!(frame(1, (0, [0, one]), 6), (6, 1, 2));
    assert_eq!(frame(2, (0, [two, one]), 6), (one, 1, 2));
    // Its setpoint is the right one, whatever it sends.
    assert_eq!(frame(1, (9, [0, 0]), one), (one, 1, 0));
    // Both are bad: node 0's, which is node 1's too here.
    assert_eq!(frame(3, (0, [0, one]), 6), (6, 0, 0));
}

/// Four nodes and two cells with these initial patterns: cell 0 is taken from the sensor, cell 1
/// stays. Both are voted in the one frame, and R is 1. Actuator 0 has cell 1, actuator 1 cell 0.
fn crossed(initial: [u64; 2]) -> Plan {
    let rows = [
        [0, 4, 1, 2, 1, 2],
        [1, 0, 0, 0, initial[0], 0],
        [1, 1, 0, 0, initial[1], 0],
        [10, 0, 0, 0, 0, 0],
        [20, 0, 0, 0, 0, 0],
        [20, 0, 1, 0, 0, 0],
        [30, 0, 1, 0, 0, 0],
        [30, 1, 0, 0, 0, 0],
    ];
    read(&plan_text(&rows)).unwrap()
}

/// What is handed on in one frame after another, each with its sensor, mask and fill; what is
/// remembered is the same.
fn handed_on<const FRAMES: usize>(
    plan: &Plan,
    frames: [(u64, u64, u8); FRAMES],
) -> [Vec<u64>; FRAMES] {
    let mut system = System::power_on(plan);
    frames.map(|(sensor, mask, fill)| {
        let (faults, mut place) = (vec![fill; fault_length(plan)], vec![9; plan.actuators]);
        system.frame(plan, &[sensor], mask, &faults, &mut place);
        assert_eq!(system.handed, place);
        place
    })
}

/// "At power-on that is the actuator's cell's initial pattern". Frame 0 is tied: the bad nodes put
/// out 255s or 0, the good ones 7 for actuator 0 and the sensor's 5 for actuator 1.
#[test]
fn frame_0_tied() {
    let frame = |initial: [u64; 2], mask: u64, fill: u8| {
        assert_eq!(System::power_on(&crossed(initial)).handed, [initial[1], initial[0]]);
        handed_on(&crossed(initial), [(5, mask, fill)]).concat()
    };
    // The good ones' 7 was the initial pattern; nobody puts out 3.
    assert_eq!(frame([3, 7], 3, 255), [7, ONES]);
    assert_eq!(frame([3, 7], 12, 255), [7, 5]);
    // The good ones put out what cell 0 was at first, or the bad ones do.
    assert_eq!(frame([5, 7], 3, 255), [7, 5]);
    assert_eq!(frame([ONES, 7], 3, 255), [7, ONES]);
    assert_eq!(frame([ONES, 7], 12, 255), [7, ONES]);
    assert_eq!(frame([0, 7], 12, 0), [7, 0]);
    assert_eq!(frame([MINUS, 7], 12, 0), [7, 5]);
    // Three of four put out another value.
    assert_eq!(frame([5, 7], 7, 255), [ONES, ONES]);
    assert_eq!(frame([ONES, 7], 1, 255), [7, 5]);
}

/// What is remembered is what was handed on, a wrong value too, and never what the single
/// controller puts out.
#[test]
fn what_was_handed_on_is_remembered() {
    let plan = crossed([3, 7]);
    let of_actuator_1 = |frames: [(u64, u64, u8); 4]| handed_on(&plan, frames).map(|both| both[1]);
    // The right value stays through ties, whichever half is bad and whatever it puts out.
    assert_eq!(of_actuator_1([(5, 0, 0), (5, 3, 255), (5, 12, 0), (5, 3, 1)]), [5; 4]);
    // Two of four are bad and nobody puts out 5 any more: node 0's. Then the wrong one stays.
    let wrong = [(5, 0, 0), (6, 3, 255), (6, 3, 255), (6, 12, 255)];
    assert_eq!(of_actuator_1(wrong), [5, ONES, ONES, ONES]);
    // Three of four put it out: it is handed on and then remembered.
    let more = [(5, 0, 0), (5, 14, 255), (5, 12, 255), (5, 12, 0)];
    assert_eq!(of_actuator_1(more), [5, ONES, ONES, 5]);
    // The sensor is 5 again, which was handed on before the last value: that does not count.
    let again = [(5, 0, 0), (6, 0, 0), (5, 3, 0), (6, 3, 0)];
    assert_eq!(of_actuator_1(again), [5, 6, 0, 0]);
    // Each actuator has its own: for actuator 0 the good ones put out 7, which is remembered.
    let both = handed_on(&plan, [(6, 3, 0), (7, 3, 0), (7, 3, 255)]);
    assert_eq!(both, [[7, 0], [7, 0], [7, ONES]].map(Vec::from));
}

/// "A cylinder jumped between two values, each held by two nodes of four": with bytes 64 the bad
/// pair puts out 32.50196. Both cells are voted in the one frame, and R is 1: nodes 2 and 3, good
/// in frame 4, work in frame 5. There nobody puts out 20 any more.
#[test]
fn a_cylinder_that_jumped() {
    let [none, most] = [0.0f64, 25.0].map(f64::to_bits);
    let rows = [
        [0, 4, 1, 2, 1, 1],
        [1, 0, 0, 0, 0, 0],
        [1, 1, 0, 0, 0, 0],
        [10, 0, 0, 0, 0, 0],
        [14, 0, 1, 0, none, most],
        [20, 0, 0, 0, 0, 0],
        [20, 0, 1, 0, 0, 0],
        [30, 0, 1, 0, 0, 0],
    ];
    let line = |(mask, speed): (u64, f64)| format!("{mask:4}  64{:20}\n", speed.to_bits());
    let masks = [(0, 20.0), (12, 20.0), (3, 20.0), (12, 20.0), (3, 20.0), (3, 21.0)];
    let run = masks.map(line).concat();
    let expected = "       0   4   4 4626322717216342016   4
       1   2   2 4626322717216342016   0
       2   0   2 4626322717216342016   0
       3   0   2 4626322717216342016   0
       4   0   2 4626322717216342016   0
       5   2   2 4629771061636907072   0
";
    assert_eq!(printed(&plan_text(&rows), run.as_bytes()), expected);
    assert_eq!(u64::from_be_bytes([64; 8]), 4629771061636907072);
}

/// The words of a system of K in which all nodes have these good counts, and everything else is 9.
fn system_words(nodes: usize, good: u64) -> Vec<u64> {
    let mut words = vec![9; 246];
    words[231..231 + nodes].fill(good);
    words
}

/// "The memory belongs to the system record": of its words the first A are read and written where a
/// frame is not refused, and the others are neither.
#[test]
fn words_that_were_handed_on() {
    let plan = crossed([3, 7]);
    let mut power_on = vec![9; 246];
    assert_eq!(calls::system_power_on(Some(&plan), &mut power_on), 0);
    assert_eq!(power_on[231..], [1, 1, 1, 1, 0, 0, 0, 7, 3, 0, 0, 0, 0, 0, 0]);
    let faults = vec![255; fault_length(&plan)];
    // Nodes 0 and 1 are bad: of 255s and 7, and of 255s and 5, the remembered one. What stands in
    // the place does not count.
    let frame = |handed: [u64; 2], place: &mut [u64], mask: u64, bytes: usize| {
        let mut system = power_on.clone();
        system[238..].copy_from_slice(&[handed[0], handed[1], 7, 5, ONES, 1, MINUS, 0]);
        let (before, faults, given) = (system.clone(), &faults[..bytes], (&mut system, &mut 9));
        let answer = calls::system_frame(Some(&plan), given.0, &[5], mask, faults, place, given.1);
        assert!(answer == 0 || system == before);
        assert_eq!(system[240..], before[240..]);
        assert!(answer != 0 || system[238..240] == *place);
        answer
    };
    for (handed, expected) in [
        ([7, 5], [7, 5]),
        ([ONES, 5], [ONES, 5]),
        ([7, ONES], [7, ONES]),
        ([5, 7], [ONES, ONES]),
        ([0, MINUS], [ONES, ONES]),
    ] {
        for given in [[7, 5], [ONES; 2], [0, 9]] {
            let mut place = given;
            assert_eq!((frame(handed, &mut place, 3, faults.len()), place), (0, expected));
            let mut place = given;
            assert_eq!((frame(handed, &mut place, 16, faults.len()), place), (9, given));
            assert_eq!((frame(handed, &mut place, 3, faults.len() - 1), place), (8, given));
            assert_eq!(frame(handed, &mut place[..1], 3, faults.len()), 8);
            assert_eq!(place, given);
        }
    }
    // The same by a run's line, and by one that is refused.
    let next = |handed: [u64; 2], rest: &str| {
        let (mut run, mut line, mut count) = ([&power_on[..], &[9; 35]].concat(), [b'.'; 61], 9);
        run[238..246].copy_from_slice(&[handed[0], handed[1], 7, 5, ONES, 1, MINUS, 0]);
        run[280] = 0;
        let before = run.clone();
        let rest = rest.as_bytes();
        let answer = calls::listing_next(Some(&plan), &mut run, rest, &mut line, &mut count);
        assert!(answer == 0 || run == before);
        assert_eq!(run[240..246], before[240..246]);
        (answer, [run[238], run[239]])
    };
    assert_eq!(next([7, ONES], "   3 255                   5\n"), (0, [7, ONES]));
    assert_eq!(next([5, 7], "   3 255                   5\n"), (0, [ONES, ONES]));
    assert_eq!(next([7, ONES], "  12 255                   6\n"), (0, [7, ONES]));
    assert_eq!(next([5, 7], "  12 255                   6\n"), (0, [7, 6]));
    assert_eq!(next([5, 7], ""), (0, [5, 7]));
    for refused in ["  16 255                   5\n", "   3 256                   5\n", "   3"] {
        assert_eq!(next([5, 7], refused), (10 + 256, [5, 7]));
    }
}

/// "What a .. system record holds past n nodes .. is neither read nor changed"; "9: mask >= 2^n, or
/// a good count above R".
#[test]
fn calls_on_one_and_two_nodes() {
    for nodes in [1, 2] {
        let plan = k_of(nodes as u64, false);
        let faults = vec![0; fault_length(&plan)];
        let frame = |mask: u64, system: &mut [u64]| {
            let (mut place, mut agreement, handed) = ([9], 9, system[238]);
            let given = (&mut place, &mut agreement);
            let answer =
                calls::system_frame(Some(&plan), system, &[5], mask, &faults, given.0, given.1);
            let past = [&system[33 * nodes..231], &system[231 + nodes..238], &system[239..]];
            assert!(past.concat().iter().all(|&word| word == 9));
            assert_eq!(system[238], if answer == 0 { place[0] } else { handed });
            (answer, agreement)
        };
        let good = |system: &[u64]| system[231..231 + nodes].to_vec();
        let (mut system, mut working) = (system_words(nodes, 3), 9);
        let answer = calls::system_working(Some(&plan), &system, 0, &mut working);
        assert_eq!((answer, working), (0, nodes));
        assert_eq!(frame(0, &mut system), (0, nodes));
        let after = system.clone();
        assert_eq!(frame(1 << nodes, &mut system), (9, 0));
        assert_eq!((good(&system), &system), (vec![3; nodes], &after));
        // All are bad, with zero bytes.
        assert_eq!(frame((1 << nodes) - 1, &mut system), (0, 0));
        assert_eq!(good(&system), vec![0; nodes]);
        assert_eq!(frame(0, &mut system_words(nodes, 4)), (9, 0));
    }
}

/// The fault bytes: "for each node its memory after the frame, its n messages by receiver, its A
/// setpoints".
#[test]
fn layout_of_the_fault_bytes() {
    let plan = k();
    let mut faults = vec![0; fault_length(&plan)];
    assert_eq!(faults.len(), 3 * (4 * 18 + 8));
    let node = 2 * (4 * 18 + 8);
    faults[node + 1] = 9; // its counter
    faults[node + 17] = 8; // its cell 1
    faults[node + 18 + 1] = 1; // the counter it sends to node 0
    faults[node + 3 * 18 + 18 + 7] = 6; // its setpoint
    let mut system = System::power_on(&plan);
    let mut place = [0];
    system.frame(&plan, &[5], 0b110, &faults, &mut place);
    assert_eq!(system.memories[0], Memory { counter: 1, cells: vec![5, 0] });
    assert_eq!(system.memories[1], Memory { counter: 0, cells: vec![0, 0] });
    assert_eq!(system.memories[2], Memory { counter: 9, cells: vec![0, 8] });
    assert_eq!(place, [0]);
    assert_eq!(system.counts, [3, 0, 0]);
}

/// Plan K as words: counts 3 2 2 1 1 2; tasks from word 38 on, votes from 422, outputs from 438.
fn k_words() -> Vec<u64> {
    let mut words = vec![0; 446];
    words[..6].copy_from_slice(&[3, 2, 2, 1, 1, 2]);
    (0..64).for_each(|task| words[38 + 6 * task] = 10);
    words[44..50].copy_from_slice(&[11, 1, 1, 0, 1, 0]);
    words[423] = 2;
    words[438] = 1;
    words
}

#[test]
fn words_of_k() {
    let mut words = vec![7; 446];
    assert_eq!(calls::plan_read(&plan_text(&K), &mut words), 0);
    assert_eq!(words, k_words());
    let mut kept = vec![7; 446];
    assert_eq!(calls::plan_read(&plan_text(&without(&K, 6)), &mut kept), 6);
    assert_eq!(calls::plan_read(&plan_text(&changed(&K, 5, &[(2, 2)])), &mut kept), 5 + 256 * 5);
    assert_eq!(kept, vec![7; 446]);
    let plan = calls::plan_of(&k_words());
    let (mut period, mut count, mut text) = (0, 9, vec![255; 400]);
    assert_eq!((calls::plan_period(plan.as_ref(), &mut period), period), (0, 3));
    assert_eq!((calls::plan_write(plan.as_ref(), &mut text, &mut count), count), (0, 399));
    assert_eq!(text, [plan_text(&K), vec![255]].concat());
    assert_eq!((calls::plan_write(plan.as_ref(), &mut text[..398], &mut count), count), (8, 0));
    assert_eq!((calls::plan_write(None, &mut text[..398], &mut count), count), (7, 0));
}

#[test]
fn words_of_a_cam() {
    let mut words = vec![7; 446];
    assert_eq!(calls::plan_read(&plan_text(&CUTTER), &mut words), 0);
    assert_eq!(words[44..50], [16, 0, 1, 0, 0, 0]);
    let (mut count, mut text) = (9, vec![255; 342]);
    let plan = calls::plan_of(&words);
    assert_eq!((calls::plan_write(plan.as_ref(), &mut text, &mut count), count), (0, 342));
    assert_eq!(text, plan_text(&CUTTER));
}

/// 7: words that no accepted text has.
#[test]
fn words_that_are_no_plan() {
    let with = |changes: &[(usize, u64)]| {
        let mut words = k_words();
        changes.iter().for_each(|&(at, value)| words[at] = value);
        calls::plan_of(&words).is_some()
    };
    assert!(with(&[]) && with(&[(6, NAN), (7, u64::MAX)]));
    assert!(with(&[(423, 3)]) && with(&[(422, 2), (423, 0)]));
    assert!(!with(&[(423, 0)]), "no recovery period");
    assert!(with(&[(0, 1)]) && with(&[(0, 2)]) && with(&[(0, 7)]), "other nodes");
    assert!(!with(&[(0, 0)]) && !with(&[(0, 8)]) && !with(&[(0, 257)]) && !with(&[(0, MINUS | 2)]));
    assert!(!with(&[(3, 17)]) && !with(&[(4, 1 << 32 | 1)]));
    assert!(!with(&[(8, 1)]), "an initial pattern past the cells");
    assert!(!with(&[(5, 1)]), "a task past the count");
    assert!(!with(&[(5, 3)]), "frames that fall");
    assert!(with(&[(5, 3), (51, 1)]), "a third task, of frame 1");
    assert!(!with(&[(50, 11)]) && !with(&[(50, 0)]) && !with(&[(38 + 6 * 63 + 5, 1)]));
    assert!(!with(&[(38, 17)]) && !with(&[(38, 1)]) && !with(&[(38, 20)]) && !with(&[(38, 266)]));
    assert!(!with(&[(49, 1)]), "an unused field of a Sum");
    assert!(with(&[(44, 16), (48, 0)]), "a cam in place of the Sum");
    assert!(!with(&[(44, 16)]) && !with(&[(44, 16), (48, 0), (49, 1)]), "unused fields of a cam");
    assert!(!with(&[(44, 17), (48, 0)]) && !with(&[(44, 272), (48, 0)]), "kinds close to it");
    assert!(!with(&[(44, 16), (47, 2), (48, 0)]), "a cam of a cell past the cells");
    assert!(!with(&[(423, 6)]) && !with(&[(423, 2 | 1 << 32)]) && !with(&[(424, 1)]));
    assert!(!with(&[(438, 2)]) && !with(&[(439, 1)]));
    assert!([0, 1, u64::MAX].iter().all(|&word| calls::plan_of(&[word; 446]).is_none()));
}

/// "Order 7, 9, 8."
#[test]
fn order_of_refusals() {
    let plan = k();
    let length = fault_length(&plan);
    let call = |plan: Option<&Plan>, system: &mut [u64], mask: u64, faults: usize| {
        let (before, mut place, mut agreement) = (system.to_vec(), [9], 9);
        let faults = vec![0; faults];
        let given = (&mut place, &mut agreement);
        let answer = calls::system_frame(plan, system, &[0], mask, &faults, given.0, given.1);
        assert!(answer == 0 || (system.to_vec(), place) == (before, [9]));
        assert_eq!(agreement > 0, answer == 0 && mask != 7);
        // Node 3, cell 2 and actuator 1 are past the plan's.
        assert!((system[99], system[3], system[132], system[239]) == (9, 9, 9, 9));
        answer
    };
    assert_eq!(call(None, &mut system_words(3, 4), 8, 0), 7);
    assert_eq!(call(Some(&plan), &mut system_words(3, 4), 0, 0), 9);
    assert_eq!(call(Some(&plan), &mut system_words(3, 3), 8, 0), 9);
    assert_eq!(call(Some(&plan), &mut system_words(3, 3), 7, length - 1), 8);
    let mut system = system_words(3, 3);
    system[231..234].copy_from_slice(&[3, 1, 0]);
    assert_eq!(call(Some(&plan), &mut system, 1, length), 0);
    assert_eq!(system[231..238], [0, 2, 1, 9, 9, 9, 9]);
    assert_eq!(call(Some(&plan), &mut system_words(3, 3), 7, length), 0);
    let mut count = 5;
    system[231..234].copy_from_slice(&[3, 2, 3]);
    assert_eq!((calls::system_working(Some(&plan), &system, 1, &mut count), count), (0, 1));
}

/// A counter counts by its low 16 bits, a good count above 65,535 as 65,535; what is written is
/// the record's, what is past the nodes and cells stays, high bits too.
#[test]
fn any_words_are_a_record() {
    let (plan, sensor, high) = (k(), [5], MINUS | 1 << 16);
    let memory = |counter: u64| {
        let mut words = vec![high; 33];
        words[..3].copy_from_slice(&[counter, 7, 8]);
        words
    };
    for counter in [0, 65_536, high, MINUS] {
        let mut words = memory(counter);
        assert_eq!(calls::node_compute(Some(&plan), &mut words, &sensor), 0);
        assert_eq!((&words[..3], &words[3..]), (&[1, 5, 8][..], &[high; 30][..]));
        let mut words = memory(counter);
        assert_eq!(calls::node_compute(Some(&plan), &mut words, &[]), 8);
        assert_eq!(words, memory(counter));
        let mut bytes = [9; 18];
        assert_eq!(calls::node_message(Some(&plan), &words, &mut bytes), 0);
        // Counter 0 is after frame 1, in which cell 1 is voted.
        assert_eq!(bytes, message(0, [0, 8]));
        let (mut system, mut count) = (system_words(3, 3), 9);
        (0..7).for_each(|node| system[33 * node..33 * node + 33].copy_from_slice(&memory(0)));
        assert_eq!((calls::system_equal(Some(&plan), &system, &words, &mut count), count), (0, 3));
    }
    // 3 is R; the same in the low 16 bits is not.
    for (good, answer) in [(3, 0), (4, 9), (65_535, 9), (65_539, 9), (MINUS | 3, 9)] {
        let mut count = 9;
        let counted = calls::system_working(Some(&plan), &system_words(3, good), 0, &mut count);
        assert_eq!((counted, count), (answer, if answer == 0 { 3 } else { 0 }));
        // Past the nodes it is not looked at.
        let mut system = system_words(3, 3);
        system[234] = good;
        assert_eq!((calls::system_working(Some(&plan), &system, 1, &mut count), count), (0, 2));
    }
    let mut words = memory(high);
    assert_eq!(calls::node_power_on(Some(&plan), &mut words), 0);
    assert_eq!(words, vec![0; 33]);
    let mut words = vec![high; 246];
    assert_eq!(calls::system_power_on(Some(&plan), &mut words), 0);
    assert_eq!(words, [vec![0; 231], vec![3, 3, 3, 0, 0, 0, 0], vec![0; 8]].concat());
    assert_eq!((calls::system_power_on(None, &mut words), words[231]), (7, 3));
}

/// The agreement is 0 beside 7 and 8.
#[test]
fn agreement_beside_a_refusal() {
    let (plan, bins) = (k(), message(0, [0, 7]).repeat(3));
    let vote = |plan: Option<&Plan>, bytes: usize| {
        let (mut memory, mut agreement) = ([9; 33], 5);
        (calls::node_vote(plan, &mut memory, &bins[..bytes], &mut agreement), agreement)
    };
    assert_eq!(vote(Some(&plan), 54), (0, 3));
    assert_eq!(vote(None, 54), (7, 0));
    assert_eq!(vote(Some(&plan), 53), (8, 0));
}

/// K's run, with this mask in frame 1: document 01 has 4.
fn k_run(mask: u64) -> Vec<u8> {
    k_run_filled(mask, 255)
}

fn k_run_filled(mask: u64, fill: u64) -> Vec<u8> {
    let masks = [0, mask, 0, 0, 0, 0];
    let sensors = [1.0f64, 1.0, 2.0, 3.0, 3.0, 3.0];
    let line = |(mask, sensor): (u64, f64)| format!("{mask:4}{fill:4}{:20}\n", sensor.to_bits());
    masks.into_iter().zip(sensors).map(line).collect::<String>().into_bytes()
}

/// The last column: node 2 is bad in frame 1, sends counter 0 and not 1 in frame 2 (65,535 mod 2 is
/// 1), a NaN as cell 1 in frame 3, and what the others send from frame 4 on.
const K_LISTING: &str = "       0   3   3                   0   3
       1   2   2 4607182418800017408   2
       2   2   2 4607182418800017408   2
       3   2   2 4613937818241073152   2
       4   2   3 4613937818241073152   3
       5   3   3 4618441417868443648   3
";

fn printed(plan: &[u8], run: &[u8]) -> String {
    String::from_utf8(listing(plan, run).bytes).unwrap()
}

/// What a call for a run's next line answers and gives, with a place of 41 bytes: K's line has as
/// many.
fn next_line(run: &mut [u64], rest: &[u8]) -> (u64, usize, String) {
    let (plan, mut place, mut count) = (k(), vec![b'.'; 44], 9);
    let answer = calls::listing_next(Some(&plan), run, rest, &mut place[..41], &mut count);
    assert_eq!(place[41..], *b"...");
    assert!(answer == 0 && count > 0 || place == [b'.'; 44]);
    (answer, count, String::from_utf8(place[..count].to_vec()).unwrap())
}

fn refusal_line(answer: u64, room: usize) -> (u64, usize, String) {
    let (mut place, mut count) = (vec![b'.'; room], 9);
    let given = calls::listing_refusal(answer, &mut place, &mut count);
    (given, count, String::from_utf8(place).unwrap())
}

/// K's listing call by call: the run at power-on, a line each, the end, and a line that is refused.
#[test]
fn listing_of_k_by_calls() {
    let (mut plan, mut run) = (vec![7; 446], vec![7; 281]);
    let other = plan_text(&without(&K, 6));
    assert_eq!(calls::listing_start(&other, &mut plan, &mut run), 6);
    assert_eq!((&plan[..], &run[..]), (&[7; 446][..], &[7; 281][..]));
    assert_eq!(calls::listing_start(&plan_text(&K), &mut plan, &mut run), 0);
    assert_eq!(plan, k_words());
    assert_eq!(run, [vec![0; 231], vec![3, 3, 3, 0, 0, 0, 0], vec![0; 41], vec![3, 0]].concat());
    let text = k_run(4);
    let (mut rest, mut out) = (&text[..], String::new());
    for frame in 0..6 {
        // The R of the run counts for nothing, and the plan's is written.
        run[279] = frame;
        let (answer, count, line) = next_line(&mut run, rest);
        assert_eq!((answer, count, run[279], run[280]), (0, 41, 3, frame + 1));
        out += &line;
        rest = &rest[29..];
    }
    assert_eq!((out.as_str(), rest), (K_LISTING, &b""[..]));
    let mut words = run.clone();
    (words[0], words[99], words[246], words[279]) = (1 << 16, 1 << 16, 1 << 16, 8);
    // At the end nothing is run.
    assert_eq!(next_line(&mut words, rest), (0, 0, String::new()));
    assert_eq!((words[0], words[99], words[246], words[279], words[280]), (0, 1 << 16, 0, 8, 6));
    let before = words.clone();
    let refused = |run: &mut [u64], rest: &[u8], number: u64, line: u64| {
        assert_eq!(next_line(run, rest), (number + 256 * line, 0, String::new()));
    };
    refused(&mut words, b"\n", 10, 7);
    refused(&mut words, &text[..28], 10, 7);
    refused(&mut words, &k_run(8)[29..], 10, 7);
    assert_eq!(words, before);
    // The last frame is 99,999.
    words[280] = 99_999;
    assert_eq!(next_line(&mut words, &text).0, 0);
    assert_eq!(words[280], 100_000);
    for frame in [100_000, 100_001, 1 << 32, 1 << 63, u64::MAX] {
        words[280] = frame;
        refused(&mut words, &text, 10, 100_001);
        assert_eq!(next_line(&mut words, b"").0, 0);
        assert_eq!(words[280], frame);
    }
    // 7, 9, 8, then 10.
    let call = |plan: Option<&Plan>, run: &mut [u64], room: usize| {
        let (mut place, mut count) = (vec![b'.'; room], 9);
        (calls::listing_next(plan, run, b"x", &mut place, &mut count), count)
    };
    assert_eq!(call(Some(&k()), &mut words, 41), (10 + 256 * 100_001, 0));
    assert_eq!(call(Some(&k()), &mut words, 40), (8, 0));
    words[233] = 65_539;
    assert_eq!(call(Some(&k()), &mut words, 40), (9, 0));
    assert_eq!(call(None, &mut words, 40), (7, 0));
}

/// "A refusal prints number (4) and line (8)."
#[test]
fn lines_of_refusals() {
    let of = |text: &str| (0, 13, String::from(text));
    assert_eq!(refusal_line(10 + 256 * 100_001, 13), of("  10  100001\n"));
    assert_eq!(refusal_line(3 + 256, 15), of("   3       1\n.."));
    assert_eq!(refusal_line(6, 13), of("   6       0\n"));
    assert_eq!(refusal_line(11, 13), of("  11       0\n"));
    assert_eq!(refusal_line(12, 13), of("  12       0\n"));
    // No call gives these: 3 is of line 1, and 6 to 9 and 12 have none.
    assert_eq!(refusal_line(3 + 256 * 7, 13), of("   3       1\n"));
    assert_eq!(refusal_line(9 + 256 * 7, 13), of("   9       0\n"));
    assert_eq!(refusal_line(12 + 256 * 7, 13), of("  12       0\n"));
    assert_eq!(refusal_line(2 + 256 * 1_234_567_890, 13), of("   234567890\n"));
    assert_eq!(refusal_line(2 + 256 * 100_000_001, 13), of("   200000001\n"));
    for answer in [0, 13, 255, 256, 13 + 256 * 7] {
        assert_eq!(refusal_line(answer, 14), (0, 0, ".".repeat(14)));
    }
    for answer in [0, 1, 10, 12, 13] {
        assert_eq!(refusal_line(answer, 12), (8, 0, ".".repeat(12)));
    }
}

#[test]
fn listing_of_k() {
    let (plan, run) = (plan_text(&K), k_run(4));
    assert_eq!(printed(&plan, &run), K_LISTING);
    let five_frames = K_LISTING[..5 * 41].to_owned();
    assert_eq!(printed(&plan, &run[..run.len() - 1]), five_frames + "  10       6\n");
    assert_eq!(printed(&plan, b""), "");
    assert_eq!(printed(b"", &run), "   1       0\n");
    assert_eq!(printed(&plan, b"   8   0                   0\n"), "  10       1\n");
    assert_eq!(printed(&plan, b"   7 256                   0\n"), "  10       1\n");
    assert_eq!(printed(&plan_text(&without(&K, 6)), b"x"), "   6       0\n");
}

/// K with four nodes: two bad ones of four, three that agree on a counter >= F, all of them.
#[test]
fn agreement_of_a_listing() {
    let plan = plan_text(&changed(&K, 1, &[(1, 4)]));
    let printed = |mask: u64| {
        // The second line is refused.
        let run = format!("{mask:4} 255                   0\n  16");
        String::from_utf8(listing(&plan, run.as_bytes()).bytes).unwrap()
    };
    let line = |working: u64, setpoint: u64, agreement: u64| {
        format!("       0{working:4}{working:4}{setpoint:20}{agreement:4}\n  10       2\n")
    };
    assert_eq!(printed(0), line(4, 0, 4));
    assert_eq!(printed(1), line(3, 0, 3));
    assert_eq!(printed(12), line(2, 0, 0));
    // The bad ones are the lower two: the initial 0 stays all the same.
    assert_eq!(printed(3), line(2, 0, 0));
    assert_eq!(printed(14), line(1, u64::MAX, 3));
    assert_eq!(printed(15), line(0, u64::MAX, 0));
}

/// K of one node, which is bad in frame 1 with all bytes 255: the plane hands on its setpoint, and
/// nothing agrees. From frame 2 on it hears itself only, its cell 1 is a NaN (NaN plus anything),
/// and it is a frame apart, as 65,535 mod 2 is 1: it works again in frame 5 and never comes right.
const ONE_LISTING: &str = "       0   1   1                   0   1
       1   0   018446744073709551615   0
       2   0   0 9221120237041090560   1
       3   0   0 9221120237041090560   1
       4   0   0 9221120237041090560   1
       5   1   0 9221120237041090560   1
";

/// K of two nodes, node 1 bad in frame 1: where the setpoints differ and nobody puts out what was
/// handed on last, node 0's is. The nodes stay a frame apart, as neither is more than half, and
/// both work in frame 5.
const TWO_LISTING: &str = "       0   2   2                   0   2
       1   1   1 4607182418800017408   0
       2   1   1 4607182418800017408   0
       3   1   1 4613937818241073152   0
       4   1   1 4613937818241073152   0
       5   2   1 4618441417868443648   0
";

/// The same with node 0 bad: the tie goes to node 0 all the same, though node 1 is right, as nobody
/// puts out the 0, then the 255s; from frame 3 on the NaN is what was handed on last.
const TWO_LISTING_0: &str = "       0   2   2                   0   2
       1   1   118446744073709551615   0
       2   1   1 9221120237041090560   0
       3   1   1 9221120237041090560   0
       4   1   1 9221120237041090560   0
       5   2   1 9221120237041090560   0
";

/// K of two nodes, node 1 bad in frame 1 with all bytes 0: it puts out the 0 that was handed on
/// last, so that one stays, in frame 2 too, in which no cell is voted. Its counter is right and its
/// cell 1 is not: 2 beside node 0's 3 in frame 3, 5 beside 6 in frame 5, node 0's each time, as
/// nobody puts out the 0, then the 3.
const TWO_LISTING_ZERO: &str = "       0   2   2                   0   2
       1   1   1                   0   0
       2   1   1                   0   2
       3   1   1 4613937818241073152   0
       4   1   1 4613937818241073152   2
       5   2   1 4618441417868443648   0
";

#[test]
fn listings_of_k_of_one_and_two_nodes() {
    let text = |nodes: u64| plan_text(&changed(&K, 1, &[(1, nodes)]));
    assert_eq!(printed(&text(1), &k_run(1)), ONE_LISTING);
    assert_eq!(printed(&text(2), &k_run(2)), TWO_LISTING);
    assert_eq!(printed(&text(2), &k_run(1)), TWO_LISTING_0);
    assert_eq!(printed(&text(2), &k_run_filled(2, 0)), TWO_LISTING_ZERO);
    // "10: .. mask >= 2^n."
    let first = |listing: &str| listing[..41].to_owned() + "  10       2\n";
    assert_eq!(printed(&text(1), &k_run(2)), first(ONE_LISTING));
    assert_eq!(printed(&text(1), &k_run(4)), first(ONE_LISTING));
    assert_eq!(printed(&text(2), &k_run(4)), first(TWO_LISTING));
    assert_eq!(printed(&text(0), &k_run(0)), "   3       1\n");
}

/// Working, equal, the setpoint and the agreement in each of five frames of a plan with F = 2, in
/// each frame of which cell 0 is taken from the sensor, which is 5. Nothing is voted, and R is 2. A
/// bad node's bytes are 0: after frame 0 its counter is wrong, after frame 1 it is right. Cell 0 is
/// 0 at power-on.
fn takes(nodes: u64, masks: [u64; 5]) -> [[u64; 4]; 5] {
    let take = |frame: u64| [10, frame, 0, 0, 0, 0];
    let rows = with(&changed(&ONE_CELL, 1, &[(1, nodes), (2, 2)]), 4, take(1));
    assert_eq!((rows[2], period(&rows)), (take(0), Some(2)));
    let line = |mask: &u64| format!("{mask:4}   0                   5\n");
    let run: String = masks.iter().map(line).collect();
    let listing = printed(&plan_text(&rows), run.as_bytes());
    let lines: Vec<_> = listing.lines().collect();
    [0, 1, 2, 3, 4].map(|frame| {
        let columns = lines[frame].split_whitespace().map(|column| column.parse().unwrap());
        let columns: Vec<u64> = columns.collect();
        assert_eq!((columns[0], columns.len()), (frame as u64, 5));
        [columns[1], columns[2], columns[3], columns[4]]
    })
}

/// A node that a fault leaves in another frame: of three, two bring it back; of two or one, none
/// does, though its cells are right and it works again after R good frames.
#[test]
fn a_counter_left_in_another_frame() {
    let back = [[2, 2, 5, 2], [2, 3, 5, 2], [2, 3, 5, 3], [3, 3, 5, 3], [3, 3, 5, 3]];
    assert_eq!(takes(3, [4, 0, 0, 0, 0]), back);
    // Of the 5 and the 0 in frame 0 the plane hands on the 0 of power-on.
    let apart = [[1, 1, 0, 0], [1, 1, 5, 0], [1, 1, 5, 0], [2, 1, 5, 0], [2, 1, 5, 0]];
    assert_eq!(takes(2, [2, 0, 0, 0, 0]), apart);
    let alone = [[0, 0, 0, 0], [0, 0, 5, 1], [0, 0, 5, 1], [1, 0, 5, 1], [1, 0, 5, 1]];
    assert_eq!(takes(1, [1, 0, 0, 0, 0]), alone);
    // Left in the right frame it comes right by itself; of two, its zero bytes agree.
    let two = [[2, 2, 5, 2], [1, 1, 5, 2], [1, 2, 5, 2], [1, 2, 5, 2], [2, 2, 5, 2]];
    assert_eq!(takes(2, [0, 2, 0, 0, 0]), two);
    let one = [[1, 1, 5, 1], [0, 0, 0, 0], [0, 1, 5, 1], [0, 1, 5, 1], [1, 1, 5, 1]];
    assert_eq!(takes(1, [0, 1, 0, 0, 0]), one);
}

/// All nodes and the single controller run the cam.
#[test]
fn listing_of_a_cutter() {
    let positions = [0.0, 1.0, 255.5, 256.0, 511.99, 512.0, 600.0, -1.0, -0.0, f64::NAN];
    let entries = [0.0, 1.0, 32_576.0, 32_768.0, 65_535.0, 65_536.0, 65_536.0, 0.0, 0.0, 0.0f64];
    let line = |position: &f64| format!("   0   0{:20}\n", position.to_bits());
    let run: String = positions.iter().map(line).collect();
    let line =
        |(frame, entry): (usize, &f64)| format!("{frame:8}   3   3{:20}   3\n", entry.to_bits());
    let expected: String = entries.iter().enumerate().map(line).collect();
    assert_eq!(listing(&plan_text(&CUTTER), run.as_bytes()).bytes, expected.as_bytes());
}

#[test]
fn lengths() {
    let text = plan_text(&K);
    assert_eq!(refusal(&text), (0, 0));
    assert_eq!(refusal(&text[1..]), (1, 0));
    assert_eq!(refusal(&[&text[..], b" "].concat()), (1, 0));
    assert_eq!(refusal(&vec![b' '; 618 * LINE]), (1, 0));
    assert_eq!(refusal(&vec![b' '; 617 * LINE]), (2, 1));
}

#[test]
fn numbers() {
    for bad in ["01", "00", " ", "1 ", "+1", "-1", "\t1", "\r", "a", "18446744073709551616"] {
        assert_eq!(refusal(&text_with(&K, 2, 4, bad)), (2, 2), "{bad:?}");
    }
    assert_eq!(refusal(&text_with(&K, 2, 4, "18446744073709551615")), (0, 0));
    let mut text = plan_text(&K);
    text[LINE - 1] = b'\r';
    assert_eq!(refusal(&text), (2, 1));
}

#[test]
fn precedence_in_one_line() {
    // 2 before 3, 3 before 4: a first line that is no header.
    assert_eq!(refusal(&text_with(&changed(&K, 1, &[(0, 99)]), 1, 5, "01")), (2, 1));
    assert_eq!(refused(&changed(&K, 1, &[(0, 99)])), (3, 1));
    assert_eq!(refused(&without(&K, 1)), (3, 1));
    assert_eq!(refused(&changed(&K, 1, &[(4, (1 << 32) + 1)])), (3, 1));
    // 2 before 4 and 5: an unknown kind, a bad index and a bad column.
    assert_eq!(refusal(&text_with(&changed(&K, 4, &[(0, 17), (2, 2)]), 4, 5, "-0")), (2, 4));
    assert_eq!(refusal(&text_with(&changed(&K, 4, &[(2, 2)]), 4, 5, "-0")), (2, 4));
    // 4 before 5.
    assert_eq!(refused(&changed(&K, 4, &[(0, 17), (2, 2)])), (4, 4));
    assert_eq!(refused(&changed(&K, 4, &[(0, 16), (2, 2)])), (5, 4));
    assert_eq!(refused(&changed(&K, 4, &[(2, 2)])), (5, 4));
    assert_eq!(refused(&changed(&K, 3, &[(1, 2), (2, 1)])), (4, 3));
    assert_eq!(refused(&with(&K, 7, [20, 0, 9999, 0, 0, 0])), (4, 7));
    assert_eq!(refused(&with(&K, 7, [20, 1, 9999, 0, 0, 0])), (5, 7));
}

#[test]
fn precedence_between_lines() {
    // An earlier 5 and a later 2, an earlier 4 and a later 2, an earlier 2 and a later 5.
    assert_eq!(refusal(&text_with(&changed(&K, 4, &[(3, 1)]), 6, 1, "01")), (5, 4));
    assert_eq!(refusal(&text_with(&changed(&K, 4, &[(0, 9)]), 6, 1, "01")), (4, 4));
    assert_eq!(refusal(&text_with(&changed(&K, 6, &[(1, 2)]), 4, 1, "01")), (2, 4));
    // 6 comes after the missing actuator at the end.
    assert_eq!(refused(&without(&without(&K, 7), 6)), (4, 6));
    assert_eq!(refused(&K[..1]), (4, 2));
}

#[test]
fn order() {
    assert_eq!(refused(&without(&K, 3)), (4, 3));
    assert_eq!(refused(&with(&K, 4, K[0])), (4, 4));
    assert_eq!(refused(&with(&K, 3, K[1])), (4, 3));
    assert_eq!(refused(&with(&K, 7, K[5])), (4, 7));
    assert_eq!(refused(&with(&K, 7, K[3])), (4, 7));
    assert_eq!(refused(&with(&K, 6, K[3])), (4, 6));
    assert_eq!(refused(&with(&K, 8, [30, 1, 1, 0, 0, 0])), (4, 8));
    assert_eq!(refused(&with(&K, 8, K[5])), (4, 8));
    let mut full = K.to_vec();
    (2..64).for_each(|_| full.insert(5, K[4]));
    assert_eq!(refused(&full), (0, 0));
    assert_eq!(refused(&with(&full, 68, [11, 1, 9999, 0, 0, 0])), (4, 68));
}

#[test]
fn rules() {
    let task = |row: Row| refused(&with(&K, 6, row));
    let [one, two] = [1.0f64.to_bits(), 2.0f64.to_bits()];
    assert_eq!(task([11, 1, 1, 0, (1 << 32) + 1, 0]), (5, 6));
    assert_eq!(task([11, 2, 1, 0, 1, 0]), (5, 6));
    assert_eq!(task([13, 1, 1, 0, 0x7FF << 52, 0]), (5, 6));
    assert_eq!(task([14, 1, 1, 0, two, one]), (5, 6));
    assert_eq!(task([14, 1, 1, 0, two | MINUS, one | MINUS]), (0, 0));
    assert_eq!(task([14, 1, 1, 0, one | MINUS, two | MINUS]), (5, 6));
    assert_eq!(task([14, 1, 1, 0, 0, MINUS]), (0, 0));
    assert_eq!(task([14, 1, 1, 0, MINUS, 0]), (0, 0));
    assert_eq!(task([15, 1, 1, 0, MINUS, 0]), (0, 0));
    assert_eq!(task([15, 1, 1, 0, MINUS, MINUS]), (5, 6));
    assert_eq!(refused(&changed(&K, 2, &[(5, 1)])), (5, 2));
    assert_eq!(refused(&changed(&K, 7, &[(2, 2)])), (5, 7));
}

/// "Kind 16, with the columns of Sum but 0 as fifth."
#[test]
fn refusals_of_a_cam() {
    let task = |row: Row| refused(&with(&K, 6, row));
    assert_eq!(task([16, 1, 1, 0, 0, 0]), (0, 0));
    assert_eq!(task([16, 1, 1, 1, 0, 0]), (0, 0));
    for unused in [1, 1 << 32, MINUS, NAN, u64::MAX] {
        assert_eq!(task([16, 1, 1, 0, unused, 0]), (5, 6));
        assert_eq!(task([16, 1, 1, 0, 0, unused]), (5, 6));
    }
    assert_eq!(task([16, 1, 1, 2, 0, 0]), (5, 6));
    assert_eq!(task([16, 1, 1, 256, 0, 0]), (5, 6));
    assert_eq!(task([16, 1, 2, 0, 0, 0]), (5, 6));
    assert_eq!(task([16, 2, 1, 0, 0, 0]), (5, 6));
    // 4: unknown kinds close to it; a falling frame, a cam after a vote or an actuator, a cell due.
    assert_eq!(task([17, 1, 1, 0, 0, 0]), (4, 6));
    assert_eq!(task([19, 1, 1, 0, 0, 0]), (4, 6));
    assert_eq!(task([272, 1, 1, 0, 0, 0]), (4, 6));
    assert_eq!(task([16, 0, 9999, 0, 1, 0]), (4, 6));
    assert_eq!(refused(&with(&K, 7, [16, 1, 1, 0, 0, 0])), (4, 7));
    assert_eq!(refused(&with(&K, 8, [16, 1, 1, 0, 0, 0])), (4, 8));
    assert_eq!(refused(&with(&K, 3, [16, 1, 1, 0, 0, 0])), (4, 3));
    assert_eq!(refused(&changed(&K, 1, &[(0, 16)])), (3, 1));
    let mut full = K.to_vec();
    (2..64).for_each(|_| full.insert(5, [16, 1, 1, 0, 0, 0]));
    assert_eq!(refused(&full), (0, 0));
    assert_eq!(refused(&with(&full, 68, [16, 1, 1, 0, 0, 0])), (4, 68));
}

/// The longest recovery period is 1 + F x C, which the chains of class "slow recovery" reach.
#[test]
fn slow_recovery_reaches_the_bound() {
    let slow = (0..3000).filter(|&seed| class_of(seed).0 == "slow recovery").map(case);
    let plans: Vec<_> = slow.map(|case| read(&case.plan.unwrap()).unwrap()).collect();
    assert!(plans.iter().all(|plan| plan.period == 1 + plan.frames * plan.cells));
    assert!(plans.iter().any(|plan| plan.period == 513));
}

/// Mask, fill and sensors of the lines of a whole run.
fn frames(plan: &Plan, run: Vec<u8>) -> Vec<(u64, u8, Vec<u64>)> {
    let frame = |line: &str| {
        let column = |from: usize, to: usize| line[from..to].trim().parse::<u64>().unwrap();
        let sensor = |sensor: usize| column(8 + 20 * sensor, 28 + 20 * sensor);
        (column(0, 4), column(4, 8) as u8, (0..plan.sensors).map(sensor).collect())
    };
    String::from_utf8(run).unwrap().lines().map(frame).collect()
}

/// The case of a cam's position.
fn position_case(pattern: u64) -> &'static str {
    let position = f64::from_bits(pattern);
    match position {
        _ if position.is_nan() && pattern < MINUS => "NaN, sign bit 0",
        _ if position.is_nan() => "NaN, sign bit 1",
        _ if pattern == MINUS => "-0",
        _ if position < 0.0 => "below 0",
        _ if position < 1.0 => "from 0 to below 1",
        _ if position == 512.0 => "512",
        _ if position == f64::INFINITY => "infinity",
        _ if position > 512.0 => "above 512",
        _ if position > 511.0 => "between 511 and 512",
        _ if position.fract() == 0.0 => "whole",
        _ => "between whole numbers",
    }
}

/// The generated runs have cams, in every case of a position: here those of the single controller.
#[test]
fn runs_have_cams_in_each_case() {
    let (mut runs, mut with_cams, mut seen) = (0, 0, BTreeMap::new());
    for case in (0..4000).map(case).filter(|case| RUNS.contains(&case.class)) {
        let plan = read(&case.plan.unwrap()).unwrap();
        let (mut single, mut here) = (Memory::power_on(&plan), BTreeSet::new());
        for (_, _, sensors) in frames(&plan, case.run.unwrap()) {
            let mut cells = single.cells.clone();
            for task in &plan.tasks[usize::from(single.counter)] {
                if let Action::Cam { a } = task.action {
                    here.insert(position_case(cells[a]));
                }
                cells[task.target] = task_result(task, &cells, &sensors);
            }
            single.compute(&plan, &sensors);
        }
        runs += 1;
        with_cams += usize::from(!here.is_empty());
        here.into_iter().for_each(|case| *seen.entry(case).or_insert(0) += 1);
    }
    println!("{with_cams} of {runs} runs have cams; by case of their positions {seen:?}");
    assert!(2 * with_cams > runs && seen.len() == 11 && seen.values().all(|&runs| runs > 20));
}

/// What comes in a frame of one or two nodes, all fault bytes of which are `fill`.
fn small_frame(
    plan: &Plan,
    system: &System,
    mask: u64,
    fill: u8,
    equal: usize,
    agreement: usize,
) -> Vec<&'static str> {
    let (one, two) = (plan.nodes == 1, plan.nodes == 2);
    let one_bad = two && (mask == 1 || mask == 2);
    let faults = vec![fill; fault_length(plan)];
    // A tie goes to node 1 by what is remembered only.
    let tie_to = |node: usize, bad: bool| {
        let goes = |actuator: usize| {
            let values = system.put_out(plan, mask, &faults, actuator);
            values[0] != values[1] && system.handed[actuator] == values[node]
        };
        one_bad && (mask >> node & 1 == 1) == bad && (0..plan.actuators).any(goes)
    };
    let all = [
        ("one, bad", one && mask == 1),
        ("one, good and not right", one && mask == 0 && equal == 0),
        ("two, both bad", two && mask == 3),
        ("two, a tie that goes to node 0, bad", tie_to(0, true)),
        ("two, a tie that goes to node 0, good", tie_to(0, false)),
        ("two, a tie that goes to node 1, bad", tie_to(1, true)),
        ("two, a tie that goes to node 1, good", tie_to(1, false)),
        ("two, one bad that does not agree", one_bad && agreement == 0),
        ("two, one bad that agrees", one_bad && agreement == 2),
        ("two, good and apart", two && mask == 0 && agreement == 0),
    ];
    all.into_iter().filter(|(_, comes)| *comes).map(|(name, _)| name).collect()
}

/// The classes of runs that are whole.
const RUNS: [&str; 5] =
    ["within the premise", "outside the premise", "ties at the plane", "longest plan", "long run"];

/// The generated runs have each number of nodes, and on one and two what can come there.
#[test]
fn runs_have_one_and_two_nodes() {
    let (mut runs, mut seen) = ([0; 8], BTreeMap::new());
    for case in (0..4000).map(case).filter(|case| RUNS.contains(&case.class)) {
        let plan = read(&case.plan.unwrap()).unwrap();
        runs[plan.nodes] += 1;
        if plan.nodes > 2 {
            continue;
        }
        let (mut system, mut single) = (System::power_on(&plan), Memory::power_on(&plan));
        let (mut place, mut here) = (vec![0; plan.actuators], BTreeSet::new());
        for (mask, fill, sensors) in frames(&plan, case.run.unwrap()) {
            let faults = vec![fill; fault_length(&plan)];
            let (_, agreement) = system.frame(&plan, &sensors, mask, &faults, &mut place);
            single.compute(&plan, &sensors);
            let equal = system.memories.iter().filter(|&memory| *memory == single).count();
            here.extend(small_frame(&plan, &system, mask, fill, equal, agreement));
        }
        here.into_iter().for_each(|case| *seen.entry(case).or_insert(0) += 1);
    }
    println!("runs by nodes {:?}; of one and two nodes {seen:?}", &runs[1..]);
    assert!(runs[1..].iter().all(|&runs| runs > 100));
    assert!(seen.len() == 10 && seen.values().all(|&runs| runs > 5));
}

/// What comes for an actuator in a frame: what the nodes put out, what was handed on before and is
/// now, and the single controller's setpoint.
fn tie_cases(values: &[u64], mask: u64, before: u64, now: u64, single: u64) -> Vec<&'static str> {
    let (most, first) = most_held(values);
    let held = holders(values, before);
    let tied = values.iter().any(|&value| value != now && holders(values, value) == most);
    let fewer = held > 0 && held < most;
    let decided = now != first;
    let bad = (0..values.len()).filter(|&node| values[node] == now).map(|node| mask >> node & 1);
    let bad = bad.collect::<BTreeSet<_>>();
    let zeros = [0, MINUS].iter().all(|&zero| holders(values, zero) == most);
    let all = [
        ("memory decides", decided),
        ("memory decides, of 2 nodes", decided && values.len() == 2),
        ("memory decides, of 3", decided && values.len() == 3),
        ("memory decides, of 4", decided && values.len() == 4),
        ("memory decides, of 5", decided && values.len() == 5),
        ("memory decides, of 6", decided && values.len() == 6),
        ("memory decides, of 7", decided && values.len() == 7),
        ("memory decides for good nodes", decided && bad == BTreeSet::from([0])),
        ("memory decides for bad nodes", decided && bad == BTreeSet::from([1])),
        ("memory decides, all good", decided && mask == 0),
        ("memory decides for another than the single controller's", decided && now != single),
        ("memory decides between the two zeros", decided && zeros),
        ("tied, nobody puts out the remembered", tied && held == 0),
        ("tied, fewer put out the remembered", tied && fewer),
        ("not tied, fewer put out the remembered", !tied && fewer),
    ];
    all.into_iter().filter(|(_, comes)| *comes).map(|(name, _)| name).collect()
}

/// The generated runs have ties at the plane of each kind. Where another value than the remembered
/// one is handed on, more nodes put it out.
#[test]
fn runs_have_ties() {
    let (mut seen, mut first) = (BTreeMap::new(), 0);
    for case in (0..4000).map(case).filter(|case| RUNS.contains(&case.class)) {
        let plan = read(&case.plan.unwrap()).unwrap();
        let (mut system, mut single) = (System::power_on(&plan), Memory::power_on(&plan));
        let (mut place, mut here) = (vec![0; plan.actuators], BTreeSet::new());
        for (number, (mask, fill, sensors)) in
            frames(&plan, case.run.unwrap()).into_iter().enumerate()
        {
            let faults = vec![fill; fault_length(&plan)];
            let before = system.handed.clone();
            system.frame(&plan, &sensors, mask, &faults, &mut place);
            single.compute(&plan, &sensors);
            for actuator in 0..plan.actuators {
                let values = &system.put_out(&plan, mask, &faults, actuator)[..plan.nodes];
                let (before, now) = (before[actuator], place[actuator]);
                assert!(now == before || holders(values, now) > holders(values, before));
                let single = single.setpoint(&plan, actuator);
                here.extend(tie_cases(values, mask, before, now, single));
            }
            first += usize::from(number == 0 && here.contains("memory decides"));
        }
        here.into_iter().for_each(|case| *seen.entry(case).or_insert(0) += 1);
    }
    println!("runs with ties {seen:?}; memory decides in frame 0 of {first}");
    assert!(seen.len() == 15 && seen.values().all(|&runs| runs > 5) && first > 5);
}

/// Demand 3's premise, from the masks: in each frame more than half of the nodes are good in it and
/// in the R frames before it, or in all before it if fewer.
fn premise(plan: &Plan, masks: &[u64]) -> bool {
    (0..masks.len()).all(|frame| {
        let since = frame.saturating_sub(plan.period);
        let works = |node: &usize| masks[since..=frame].iter().all(|mask| mask >> node & 1 == 0);
        2 * (0..plan.nodes).filter(works).count() > plan.nodes
    })
}

/// "On such a press a setpoint is vouched for only while both work": on one and two nodes the
/// premise holds just where all masks are 0. All lists of up to five masks, of three nodes four.
#[test]
fn premise_of_one_and_two_nodes() {
    for (nodes, length) in [(1, 5), (2, 5), (3, 4)] {
        let plan = k_of(nodes, false);
        let faults = vec![255; fault_length(&plan)];
        let mut held_with_bad = 0;
        for length in 1..=length {
            for list in 0..1u64 << nodes * length {
                let mask = |frame: u64| list >> nodes * frame & (1 << nodes) - 1;
                let masks: Vec<_> = (0..length).map(mask).collect();
                let held = premise(&plan, &masks);
                let quiet = masks.iter().all(|&mask| mask == 0);
                held_with_bad += usize::from(held && !quiet);
                assert!(held || !quiet);
                // The nodes that work by the good counts are those.
                let mut system = System::power_on(&plan);
                let mut more_than_half = |&mask: &u64| {
                    2 * system.frame(&plan, &[1], mask, &faults, &mut [0]).0 > plan.nodes
                };
                assert_eq!(masks.iter().all(&mut more_than_half), held, "{masks:?}");
            }
        }
        assert_eq!(held_with_bad > 0, nodes == 3);
    }
}

/// Demand 3: within its premise the plane hands on the single controller's setpoints, and the
/// working nodes' memories equal the single controller's. As these send the same, the agreement is
/// not below their number. What is remembered, at power-on too, are the single controller's
/// setpoints.
#[test]
fn within_the_premise_the_system_is_the_single_controller() {
    for case in (0..1000).map(case).filter(|case| case.class == "within the premise") {
        let plan = read(&case.plan.unwrap()).unwrap();
        let mut system = System::power_on(&plan);
        let mut single = Memory::power_on(&plan);
        let mut place = vec![0; plan.actuators];
        let setpoints = |single: &Memory| {
            (0..plan.actuators).map(|actuator| single.setpoint(&plan, actuator)).collect::<Vec<_>>()
        };
        assert_eq!(system.handed, setpoints(&single));
        for (mask, fill, sensors) in frames(&plan, case.run.unwrap()) {
            let faults = vec![fill; fault_length(&plan)];
            let before = system.counts.clone();
            let (working, agreement) = system.frame(&plan, &sensors, mask, &faults, &mut place);
            single.compute(&plan, &sensors);
            assert!(2 * working > plan.nodes);
            assert!((working..=plan.nodes).contains(&agreement));
            for node in 0..plan.nodes {
                let works = mask >> node & 1 == 0 && before[node] == plan.period;
                assert!(!works || system.memories[node] == single);
            }
            assert_eq!((&place, &system.handed), (&setpoints(&single), &setpoints(&single)));
        }
    }
}

/// Plan K's histories of length 3. In each frame two of three must work. R is 3, so a node that
/// was bad does not work again within three frames, and at most one node is ever bad: none, or one
/// of three in one or more of three frames, 1 + 3 x 7.
#[rustfmt::skip]
/// What is printed for a plan text by hand: rows 1, 2 and 4 of the short table, and a refusal with
/// its line.
#[test]
fn a_plan_checked() {
    let text = |rows: &[Row]| String::from_utf8(check::text(&plan_text(rows)).bytes).unwrap();
    assert_eq!(text(&K), "   3\n");
    let without_vote: Vec<Row> = K.into_iter().filter(|row| row[0] != 20).collect();
    assert_eq!(text(&without_vote), "   6       0\n");
    let take = [[0, 3, 1, 1, 1, 1], [1, 0, 0, 0, 0, 0], [10, 0, 0, 0, 0, 0], [30, 0, 0, 0, 0, 0]];
    assert_eq!(text(&take), "   2\n");
    assert_eq!(text(&K[..6]), "   4       7\n");
    assert_eq!(text(&[]), "   1       0\n");
}

const K_HISTORIES: [[u8; 3]; 22] = [
    [0, 0, 0],
    [0, 0, 1],
    [0, 0, 2],
    [0, 0, 4],
    [0, 1, 0],
    [0, 1, 1],
    [0, 2, 0],
    [0, 2, 2],
    [0, 4, 0],
    [0, 4, 4],
    [1, 0, 0],
    [1, 0, 1],
    [1, 1, 0],
    [1, 1, 1],
    [2, 0, 0],
    [2, 0, 2],
    [2, 2, 0],
    [2, 2, 2],
    [4, 0, 0],
    [4, 0, 4],
    [4, 4, 0],
    [4, 4, 4],
];

/// A plan with these nodes and this recovery period.
fn press(nodes: usize, period: usize) -> Plan {
    let rows = match period {
        1 => with(&ONE_CELL, 4, [20, 0, 0, 0, 0, 0]),
        2 => ONE_CELL.to_vec(),
        _ => K.to_vec(),
    };
    let plan = read(&plan_text(&changed(&rows, 1, &[(1, nodes as u64)]))).unwrap();
    assert_eq!(plan.period, period.min(3));
    Plan { period, ..plan }
}

/// Answer, count and buffer of a call for histories; the buffer held 255s.
fn listed(plan: Option<&Plan>, length: usize, bytes: usize) -> (u64, usize, Vec<u8>) {
    let (mut buffer, mut count) = (vec![255; bytes], 9);
    let answer = calls::plan_histories(plan, length, &mut buffer, &mut count);
    (answer, count, buffer)
}

/// "They fill the front of a lent buffer, one byte a mask, the rest unchanged, and their count is
/// given; a short buffer is refusal 8."
#[test]
fn histories_of_k() {
    let (plan, whole) = (calls::plan_of(&k_words()), K_HISTORIES.concat());
    assert_eq!(listed(plan.as_ref(), 3, 66), (0, 22, whole.clone()));
    assert_eq!(listed(plan.as_ref(), 3, 67), (0, 22, [whole.clone(), vec![255]].concat()));
    assert_eq!(listed(plan.as_ref(), 3, 166), (0, 22, [whole, vec![255; 100]].concat()));
    for short in [0, 1, 3, 22, 63, 65] {
        assert_eq!(listed(plan.as_ref(), 3, short), (8, 0, vec![255; short]));
    }
    assert_eq!(listed(plan.as_ref(), 1, 5), (0, 4, vec![0, 1, 2, 4, 255]));
    // Of two frames 1 + 3 x 3.
    let two = [[0, 0], [0, 1], [0, 2], [0, 4], [1, 0], [1, 1], [2, 0], [2, 2], [4, 0], [4, 4]];
    assert_eq!(listed(plan.as_ref(), 2, 20), (0, 10, two.concat()));
}

/// Of three and four nodes one may be out, of five two. A node that was bad is out for R frames
/// more, so a frame and the R before it have at most one bad node among them, or two.
///
/// R = 1. Let a, b and c count the histories whose last mask is none, a given one, a given two. One
/// frame: 1, 1, 1. Then a becomes the sum of all; b becomes a + b (three and four nodes), or a + 5b
/// + 4c; c becomes a + 2b + c. Three nodes, a + 3b: 4, 10, 28, 76. Four, a + 4b: 5, 13, 41, 121.
/// Five, a + 5b + 10c: 16, 106, 916, 7396.
///
/// R of 3 and more: the nodes that are ever bad are at most one, or two. In three frames 1 + 3 x 7,
/// 1 + 4 x 7, 1 + 5 x 7 + 10 x 7 x 7; in four 15 in place of 7. R = 2 is the same in three.
///
/// R = 2, four frames: the masks of frames 1 and 2 together have none, one or two bad nodes, and
/// the first and the last mask are each free beside them. Three nodes 4 x 4 + 3 x 3 x 2 x 2, four
/// 5 x 5 + 4 x 3 x 2 x 2, five 16 x 16 + 5 x 3 x 10 x 10 + 10 x 9 x 4 x 4.
#[rustfmt::skip]
const COUNTED: [(usize, usize, [usize; 4]); 9] = [
    (3, 1, [4, 10, 28, 76]), (4, 1, [5, 13, 41, 121]), (5, 1, [16, 106, 916, 7396]),
    (3, 2, [4, 10, 22, 52]), (4, 2, [5, 13, 29, 73]), (5, 2, [16, 106, 526, 3196]),
    (3, 3, [4, 10, 22, 46]), (4, 3, [5, 13, 29, 61]), (5, 3, [16, 106, 526, 2326]),
];

#[test]
fn histories_counted_by_hand() {
    for (nodes, period, counts) in COUNTED {
        let plan = press(nodes, period);
        for (length, count) in (1..).zip(counts) {
            let (answer, given, _) = listed(Some(&plan), length, count * length);
            assert_eq!((answer, given), (0, count), "{nodes} nodes, R = {period}, {length} frames");
            let (answer, given, buffer) = listed(Some(&plan), length, count * length - 1);
            assert_eq!((answer, given), (8, 0));
            assert!(buffer.iter().all(|&byte| byte == 255));
        }
    }
}

/// More than half of one is one, of two two: no node may be bad.
#[test]
fn histories_of_one_and_two_nodes() {
    for nodes in [1, 2] {
        for (period, length) in
            (1..=3).flat_map(|period| (1..=4).map(move |length| (period, length)))
        {
            let plan = press(nodes, period);
            assert_eq!(listed(Some(&plan), length, length), (0, 1, vec![0; length]));
            assert_eq!(listed(Some(&plan), length, length - 1), (8, 0, vec![255; length - 1]));
        }
    }
}

/// Without a fault first, ascending and each one time; what begins a history is one.
#[test]
fn histories_ascend_and_begin_with_histories() {
    for (nodes, period) in (1..=5).flat_map(|nodes| (1..=4).map(move |period| (nodes, period))) {
        let plan = press(nodes, period);
        let mut shorter = BTreeSet::from([Vec::new()]);
        for length in 1..=4 {
            let list = histories::histories(&plan, length).unwrap();
            let list: Vec<_> = list.chunks(length).map(<[u8]>::to_vec).collect();
            assert_eq!(list[0], vec![0; length]);
            assert!(list.windows(2).all(|two| two[0] < two[1]));
            assert!(list.iter().all(|history| shorter.contains(&history[..length - 1])));
            assert!(list.iter().flatten().all(|&mask| usize::from(mask) < 1 << nodes));
            shorter = list.into_iter().collect();
        }
    }
}

/// The histories are the lists of masks that meet demand 3's premise.
#[test]
fn histories_are_within_the_premise() {
    for (nodes, period) in (1..=5).flat_map(|nodes| (1..=4).map(move |period| (nodes, period))) {
        let plan = press(nodes, period);
        for length in 1..=if nodes == 5 { 3 } else { 4 } {
            let mut within = Vec::new();
            for list in 0..1u64 << nodes * length {
                let mask = |frame: usize| list >> nodes * (length - 1 - frame) & (1 << nodes) - 1;
                let masks: Vec<_> = (0..length).map(mask).collect();
                if premise(&plan, &masks) {
                    within.extend(masks.iter().map(|&mask| mask as u8));
                }
            }
            assert!(histories::histories(&plan, length).unwrap() == within);
        }
    }
}

/// Which periods make no difference: the lists are made with R, however long.
#[test]
fn histories_of_long_periods() {
    for (nodes, period) in (1..=5).flat_map(|nodes| [1, 2, 3, 4, 5, 6, 513].map(|r| (nodes, r))) {
        let plan = press(nodes, period);
        for length in 1..=if nodes == 5 && period < 5 { 3 } else { 4 } {
            let list = histories::all(nodes, period, length);
            assert!(histories::histories(&plan, length).unwrap() == list);
        }
    }
}

/// 11 "after 7 and before 8"; beside a refusal the count is 0 and the buffer as it was.
#[test]
fn order_of_refusals_of_histories() {
    let refused = |answer: u64, bytes: usize| (answer, 0, vec![255; bytes]);
    let outside = [0, 5, 6, 256, 257, 260, (1 << 32) + 3, 1 << 63, (1 << 63) + 1, usize::MAX];
    let five = press(5, 1);
    for bytes in [0, 1, 4, 29_583, 29_584, 40_000] {
        for length in outside {
            assert_eq!(listed(None, length, bytes), refused(7, bytes));
            assert_eq!(listed(Some(&five), length, bytes), refused(11, bytes));
        }
        for length in [1, 2, 3, 4] {
            assert_eq!(listed(None, length, bytes), refused(7, bytes));
            for nodes in [6, 7] {
                assert_eq!(listed(Some(&press(nodes, 3)), length, bytes), refused(11, bytes));
            }
        }
        let fits = bytes >= 29_584;
        assert_eq!(listed(Some(&five), 4, bytes).0, if fits { 0 } else { 8 });
    }
}

/// "One a line, masks in width 4, or the refusal as a run does."
#[test]
fn text_of_histories() {
    let text = |plan: &[u8]| String::from_utf8(histories::text(plan).bytes).unwrap();
    let line = |[a, b, c]: [u8; 3]| format!("{a:4}{b:4}{c:4}\n");
    assert_eq!(text(&plan_text(&K)), K_HISTORIES.map(line).concat());
    let of = |nodes: u64| text(&plan_text(&changed(&K, 1, &[(1, nodes)])));
    assert_eq!([1, 2].map(of), ["   0   0   0\n"; 2]);
    assert_eq!([6, 7].map(of), ["  11       0\n"; 2]);
    assert_eq!([0, 8].map(of), ["   3       1\n"; 2]);
    let five = of(5);
    assert_eq!((five.len(), five.lines().count()), (13 * 526, 526));
    // Two of five nodes, 3 and 4, are out in all frames.
    assert_eq!(five.lines().last(), Some("  24  24  24"));
    assert_eq!(text(b""), "   1       0\n");
    // Six nodes and no recovery period, or a fault in line 4.
    let six = changed(&K, 1, &[(1, 6)]);
    assert_eq!(text(&plan_text(&without(&six, 6))), "   6       0\n");
    assert_eq!(text(&plan_text(&changed(&six, 4, &[(2, 2)]))), "   5       4\n");
}

/// The plans for the histories program have each number of nodes, with R of 1, of 2 and longer.
#[test]
fn histories_of_all_presses() {
    let mut seen = BTreeMap::new();
    for case in (0..1500).map(histories_case) {
        if let Ok(plan) = read(&case.plan.unwrap_or_default()) {
            *seen.entry((plan.nodes, plan.period.min(3))).or_insert(0) += 1;
        }
    }
    println!("plans by nodes and recovery period {seen:?}");
    assert!(seen.len() == 21 && seen.values().all(|&plans| plans > 10));
}

/// A card of K as words and bytes: a counter with other bits above its 16, cells 7 and 8, and 9 in
/// every other word and byte, so that no bin is filled.
struct Held {
    card: Vec<u64>,
    bins: Vec<u8>,
}

impl Held {
    fn of(phase: u64, flags: u64, mask: u64) -> Held {
        let mut card = vec![9; 36];
        card[..3].copy_from_slice(&[0x5_1234, 7, 8]);
        card[33..].copy_from_slice(&[phase, flags, mask]);
        Held { card, bins: vec![9; 1813] }
    }

    /// "No refusal changes the card." What is past two cells and three bins stays in any case.
    fn call(&mut self, call: impl FnOnce(&Plan, &mut [u64], &mut [u8]) -> u64) -> u64 {
        let before = (self.card.clone(), self.bins.clone());
        let answer = call(&k(), &mut self.card, &mut self.bins);
        assert!(answer == 0 || (&self.card, &self.bins) == (&before.0, &before.1));
        assert_eq!((&self.card[3..33], &self.bins[57..]), (&before.0[3..33], &before.1[57..]));
        answer
    }

    /// The answer, and the byte that is given.
    fn read(&self, at: u64) -> (u64, u8) {
        let mut value = 9;
        (calls::card_read(Some(&k()), &self.card, at, &mut value), value)
    }

    fn write(&mut self, at: u64, value: u8) -> u64 {
        self.call(|plan, card, _| calls::card_write(Some(plan), card, at, value))
    }

    fn deliver(&mut self, number: u64, message: &[u8]) -> u64 {
        self.call(|plan, card, bins| calls::card_deliver(Some(plan), card, bins, number, message))
    }

    /// Delivers a bin of one byte, in broadcast: no other bin changes. Gives the flags after it.
    fn fill(&mut self, number: usize, byte: u8) -> u64 {
        let mut bins = self.bins.clone();
        bins[19 * number..19 * number + 19].fill(byte);
        bins[19 * number] = 1;
        assert_eq!((self.deliver(number as u64, &[byte; 18]), &self.bins), (0, &bins));
        self.card[34]
    }

    /// The answer, and what stands in a place of 9 after the call.
    fn tick(&mut self, sensor: u64) -> (u64, u64) {
        let mut place = [9];
        let given = &mut place;
        let call = |plan: &Plan, card: &mut [u64], bins: &mut [u8]| {
            calls::card_tick(Some(plan), card, bins, &[sensor], given)
        };
        (self.call(call), place[0])
    }

    /// Phase, flags and mask as words.
    fn page(&self) -> [u64; 3] {
        self.card[33..].try_into().unwrap()
    }

    fn marks(&self) -> [u8; 3] {
        [0, 19, 38].map(|at| self.bins[at])
    }
}

/// "Bytes 0-1 hold the counter, big-endian. Byte 2 is the phase .. Bytes 5-15 read as 0."
#[test]
fn page_of_a_card() {
    let held = Held::of(2, 1, 3);
    let page: Vec<_> = (0..16).map(|at| held.read(at)).collect();
    let bytes = [0x12, 0x34, 2, 1 | 4, 3, 0, 0, 0, 0, 0, 0, 0, 0, 0, 0, 0];
    assert_eq!(page, bytes.map(|byte| (0, byte)));
    // "An access outside the page."
    for at in [16, 17, 255, 256, 260, 1 << 16, (1 << 32) + 2, MINUS | 3, u64::MAX] {
        assert_eq!(held.read(at), (12, 0));
    }
    // The page shows the counter as it is now: K computes in frame 0 of an even counter, and then
    // has counter 1, which the other nodes outvote.
    let mut held = Held::of(0, 0, 0);
    assert_eq!((held.tick(5), held.read(0), held.read(1)), ((0, 9), (0, 0), (0, 1)));
    (0..3).for_each(|bin| assert_eq!(held.deliver(bin, &message(0, [0, 6])), 0));
    assert_eq!(
        (held.tick(5), held.read(1), held.tick(5), held.read(1)),
        ((0, 9), (0, 1), (0, 9), (0, 0))
    );
}

/// "Bit 2 is 1 while a masked-in flag is, else 0"; "a mask or flag bit not named here as 0".
#[test]
fn interrupt_line_of_a_card() {
    for (flags, mask) in (0..256).flat_map(|flags| (0..256).map(move |mask| (flags, mask))) {
        let held = Held::of(0, MINUS | 256 | flags, MINUS | 256 | mask);
        let masked_in = flags % 2 == 1 && mask % 2 == 1 || flags / 2 % 2 == 1 && mask / 2 % 2 == 1;
        let byte = (flags % 4) as u8 + if masked_in { 4 } else { 0 };
        assert_eq!((held.read(3), held.read(4)), ((0, byte), (0, (mask % 4) as u8)));
    }
}

/// "Byte 4 is the interrupt mask for bits 0 and 1, its other bits always 0"; "byte 5 is written
/// with ones to clear bits 0 and 1". A bit 2 written there clears nothing.
#[test]
fn writes_to_a_card() {
    for (value, mask) in [(0, 0), (1, 1), (2, 2), (3, 3), (4, 0), (254, 2), (255, 3)] {
        let mut held = Held::of(2, 3, 1);
        assert_eq!((held.write(4, value), held.page()), (0, [2, 3, mask]));
        assert_eq!((held.read(4), held.card[0]), ((0, mask as u8), 0x1234));
    }
    for (value, flags) in [(0, 3), (1, 2), (2, 1), (3, 0), (4, 3), (252, 3), (255, 0)] {
        let mut held = Held::of(1, 3, 2);
        assert_eq!((held.write(5, value), held.page()), (0, [1, flags, 2]));
        assert_eq!(held.read(5), (0, 0));
    }
    // Two ticks and a clear: the line falls, and rises again with the next tick.
    let mut held = Held::of(0, 0, 0);
    let mut line = |call: fn(&mut Held) -> u64| {
        assert_eq!(call(&mut held), 0);
        held.read(3).1
    };
    assert_eq!(line(|held| held.tick(5).0), 1);
    assert_eq!(line(|held| held.write(4, 1)), 5);
    assert_eq!(line(|held| held.write(5, 2)), 5);
    assert_eq!(line(|held| held.write(5, 1)), 0);
    assert_eq!(line(|held| held.tick(5).0), 5);
    assert_eq!(line(|held| held.write(4, 2)), 1);
}

/// "Errors: 12, an access outside the page or a write to a byte other than 4 and 5, after 7."
/// "Every tick checks sensors and setpoint place by 8"; "a wrong length is 8 in any phase, for any
/// bin number".
#[test]
fn order_of_refusals_of_a_card() {
    let (plan, mut value) = (k(), 9);
    for phase in 0..9 {
        let mut held = Held::of(phase, 255, 255);
        for at in (0..4).chain(6..18).chain([255, 260, 261, MINUS | 4, u64::MAX]) {
            assert_eq!(held.write(at, 255), 12);
        }
        for (number, bytes) in [0, 2, 3, 7, u64::MAX].into_iter().zip([0, 17, 19, 54, 17]) {
            assert_eq!(held.deliver(number, &vec![1; bytes]), 8);
        }
        for (sensors, room) in [(0, 1), (2, 1), (1, 0), (1, 2), (2, 2)] {
            let (sensors, mut place) = (vec![5; sensors], vec![9; room]);
            let tick = |plan: &Plan, card: &mut [u64], bins: &mut [u8]| {
                calls::card_tick(Some(plan), card, bins, &sensors, &mut place)
            };
            assert_eq!((held.call(tick), place), (8, vec![9; room]));
        }
        // 7 comes before 12 and 8.
        for at in [3, 4, 16] {
            assert_eq!((calls::card_read(None, &held.card, at, &mut value), value), (7, 0));
            assert_eq!(held.call(|_, card, _| calls::card_write(None, card, at, 1)), 7);
        }
        for bytes in [17, 18] {
            let message = vec![1; bytes];
            assert_eq!(held.call(|_, c, b| calls::card_deliver(None, c, b, 0, &message)), 7);
            assert_eq!(held.call(|_, c, b| calls::card_tick(None, c, b, &[5], &mut [])), 7);
        }
        assert_eq!(held.call(|_, card, bins| calls::card_power_on(None, card, bins)), 7);
    }
    let Held { mut card, mut bins } = Held::of(7, 255, 255);
    assert_eq!(calls::card_power_on(Some(&plan), &mut card, &mut bins), 0);
    assert_eq!((card, bins), (vec![0; 36], vec![0; 1813]));
    let Held { mut card, mut bins } = Held::of(7, 255, 255);
    assert_eq!(calls::card_power_on(Some(&crossed([3, 7])), &mut card, &mut bins), 0);
    assert_eq!((&card[..4], &card[4..], bins), (&[0, 3, 7, 0][..], &[0; 32][..], vec![0; 1813]));
}

/// "A phase handed in counts modulo 4, a mask or flag bit not named here as 0": the card comes back
/// so, also from a delivery that changes nothing else.
#[test]
fn any_words_are_a_card() {
    for high in [0, 4, 1 << 8, 1 << 32, MINUS, u64::MAX - 3] {
        for phase in 0..4 {
            let held = || Held::of(high | phase, high | 2, high | 1);
            assert_eq!(held().read(2), (0, phase as u8));
            let mut written = held();
            assert_eq!((written.write(5, 0), written.page()), (0, [phase, 2, 1]));
            let mut ticked = held();
            assert_eq!((ticked.tick(5).0, ticked.page()), (0, [(phase + 1) % 4, 3, 1]));
            let mut delivered = held();
            assert_eq!(delivered.deliver(3, &[1; 18]), 0);
            assert_eq!((delivered.page(), delivered.card[0]), ([phase, 2, 1], 0x1234));
            assert_eq!(delivered.bins, [9; 1813]);
            // A bin is taken in phase 1 alone.
            assert_eq!(delivered.deliver(2, &[1; 18]), 0);
            assert_eq!(delivered.marks(), if phase == 1 { [9, 9, 1] } else { [9; 3] });
            assert_eq!(delivered.bins != [9; 1813], phase == 1);
        }
    }
}

/// "Bit 1 is set when the last empty bin is filled": not a bin early, and not again by a bin that
/// was full. "A bin delivered again replaces the first."
#[test]
fn bins_of_a_card() {
    let mut held = Held::of(1, 0, 3);
    assert_eq!((held.fill(2, 3), held.fill(0, 4), held.fill(0, 5)), (0, 0, 0));
    assert_eq!((held.fill(1, 6), held.read(3)), (2, (0, 6)));
    assert_eq!((held.fill(1, 7), held.write(5, 2), held.read(3)), (2, 0, (0, 0)));
    assert_eq!((held.fill(1, 8), held.fill(2, 9)), (0, 0));
    // Numbers from n up, also such as are right in their low bits.
    let bins = held.bins.clone();
    for number in [3, 4, 7, 256, (1 << 32) + 1, MINUS, u64::MAX] {
        assert_eq!((held.deliver(number, &[6; 18]), held.page()), (0, [1, 0, 3]));
        assert_eq!(held.bins, bins);
    }
    // Of bins with the marks 0, 2 and 1 two are empty.
    let mut held = Held::of(1, 1, 0);
    (held.bins[0], held.bins[19], held.bins[38]) = (0, 2, 1);
    assert_eq!((held.fill(1, 3), held.fill(0, 3), held.marks()), (1, 3, [1; 3]));
}

/// "Leaving sync gives the setpoints; other ticks don't touch their place." "Entering compute
/// empties all": marks of any value, and nothing but marks; bit 1 stays.
#[test]
fn ticks_of_a_card() {
    let mut held = Held::of(3, 2, 2);
    held.bins[0] = 1;
    assert_eq!((held.tick(5), held.page()), ((0, 8), [0, 3, 2]));
    assert_eq!((held.marks(), held.read(3)), ([0; 3], (0, 7)));
    held.bins.iter_mut().step_by(19).take(3).for_each(|mark| *mark = 9);
    assert_eq!(held.bins, [9; 1813]);
    // Frame 0: the sensor into cell 0. Broadcast changes phase and flag alone.
    assert_eq!((held.tick(5), held.page(), &held.card[..3]), ((0, 9), [1, 3, 2], &[1, 5, 8][..]));
    assert_eq!((held.write(5, 3), held.page()), (0, [1, 0, 2]));
    assert_eq!((held.tick(6), held.page(), &held.card[..3]), ((0, 9), [2, 1, 2], &[1, 5, 8][..]));
    assert_eq!(held.bins, [9; 1813]);
    // Three empty bins: counter 0 of each is voted in, and with it cell 1, which is 0 in each.
    assert_eq!((held.tick(6), held.page(), &held.card[..3]), ((0, 9), [3, 1, 2], &[0, 5, 0][..]));
    assert_eq!(held.bins, [9; 1813]);
    assert_eq!((held.tick(6), held.page(), &held.card[..3]), ((0, 0), [0, 1, 2], &[0, 5, 0][..]));
}

/// Four ticks of K's card with counter 1 and cells 2 and 1, of which frame 1 makes 3 as cell 1. Bins
/// are delivered as (phase, number, cell 1); gives the setpoint.
fn k_frame(delivered: &[(u64, u64, f64)]) -> f64 {
    let mut held = Held::of(0, 3, 0);
    held.card[..3].copy_from_slice(&[1, 2f64.to_bits(), 1f64.to_bits()]);
    let places = [0, 1, 2, 3].map(|phase| {
        for &(_, number, cell) in delivered.iter().filter(|(at, ..)| *at == phase) {
            assert_eq!(held.deliver(number, &message(0, [0, cell.to_bits()])), 0);
        }
        // Only the first tick's sensors count; frame 1 takes none.
        held.tick(phase)
    });
    assert_eq!((&places[..3], held.page()[0], held.marks()), (&[(0, 9); 3][..], 0, [0; 3]));
    assert_eq!(held.card[2], places[3].1);
    f64::from_bits(places[3].1)
}

/// A frame of a card by hand. Two of three bins are more than half.
#[test]
fn bins_that_a_card_votes_on() {
    assert_eq!(k_frame(&[(1, 0, 3.0), (1, 1, 3.0), (1, 2, 3.0)]), 3.0);
    assert_eq!(k_frame(&[(1, 2, 4.0), (1, 0, 3.0), (1, 1, 4.0)]), 4.0);
    // No two are the same: its own stays.
    assert_eq!(k_frame(&[(1, 0, 4.0), (1, 1, 5.0), (1, 2, 6.0)]), 3.0);
    // The last delivery of a bin counts.
    assert_eq!(k_frame(&[(1, 0, 4.0), (1, 1, 5.0), (1, 0, 6.0), (1, 2, 6.0)]), 6.0);
    assert_eq!(k_frame(&[(1, 0, 6.0), (1, 1, 5.0), (1, 0, 4.0), (1, 2, 6.0)]), 3.0);
    // A bin still empty counts as zero bytes: beside two others, one other, and none.
    assert_eq!(k_frame(&[(1, 0, 4.0), (1, 1, 4.0)]), 4.0);
    assert_eq!(k_frame(&[(1, 0, 4.0), (1, 1, 0.0)]), 0.0);
    assert_eq!(k_frame(&[(1, 0, 4.0)]), 0.0);
    assert_eq!(k_frame(&[]), 0.0);
    // Bins before and after broadcast, and from n up.
    assert_eq!(k_frame(&[(0, 0, 4.0), (0, 1, 4.0), (0, 2, 4.0)]), 0.0);
    assert_eq!(k_frame(&[(1, 0, 4.0), (1, 1, 4.0), (2, 0, 5.0), (2, 2, 5.0), (3, 1, 5.0)]), 4.0);
    assert_eq!(k_frame(&[(1, 0, 4.0), (1, 1, 5.0), (1, 3, 5.0), (1, 258, 5.0)]), 3.0);
}

/// "Four ticks not refused from compute with all bins empty .. must give that node's frame for the
/// sensors of the first and the bins delivered": cards from power-on beside the system of the same
/// run. A bad node's card has the fill in its memory after the frame, and is in compute with empty
/// bins; what it sends is not delivered where it is zero bytes.
#[test]
fn four_ticks_are_a_frame() {
    let classes = ["within the premise", "outside the premise", "ties at the plane"];
    for case in (0..300).map(case).filter(|case| classes.contains(&case.class)) {
        let plan = read(&case.plan.unwrap()).unwrap();
        let (mut system, mut place) = (System::power_on(&plan), vec![0; plan.actuators]);
        let mut cards = vec![Card::power_on(&plan); plan.nodes];
        for (mask, fill, sensors) in frames(&plan, case.run.unwrap()) {
            let faults = vec![fill; fault_length(&plan)];
            let good = |node: &usize| mask >> node & 1 == 0;
            let nodes: Vec<_> = (0..plan.nodes).filter(good).collect();
            let mut messages = vec![vec![fill; message_length(&plan)]; plan.nodes];
            for &node in &nodes {
                cards[node].tick(&plan, &sensors, &mut []);
                cards[node].memory.message(&plan, &mut messages[node]);
            }
            for &node in &nodes {
                for sender in (0..plan.nodes).rev().filter(|sender| good(sender) || fill != 0) {
                    cards[node].deliver(sender as u64, &messages[sender]);
                }
                cards[node].tick(&plan, &[], &mut []);
                cards[node].tick(&plan, &[], &mut []);
                cards[node].tick(&plan, &[], &mut place);
                let setpoint = |actuator| cards[node].memory.setpoint(&plan, actuator);
                assert_eq!(place, (0..plan.actuators).map(setpoint).collect::<Vec<_>>());
            }
            system.frame(&plan, &sensors, mask, &faults, &mut place);
            for (node, card) in cards.iter_mut().enumerate() {
                assert!(card.phase == 0 && card.bins.iter().all(|bin| bin.mark == 0));
                if !good(&node) {
                    card.memory = system.memories[node].clone();
                }
                assert_eq!(card.memory, system.memories[node]);
            }
        }
    }
}

#[test]
fn classes_share_100_seeds() {
    assert_eq!(CLASSES.iter().map(|(_, seeds)| seeds).sum::<u64>(), 100);
    assert_eq!(HISTORIES_CLASSES.iter().map(|(_, seeds)| seeds).sum::<u64>(), 100);
    assert_eq!(parse(b"").err(), refuse::<()>(1, 0).err());
}
