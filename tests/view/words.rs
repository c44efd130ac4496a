//! The words of each cause of each refusal, worked out by hand on damaged texts: number and line are
//! the proved program's.

use super::view::cause::{self, Cause};
use super::view::names::Names;
use super::view::programs::{refusal, Checked};
use super::view::text::{self, Row};
use super::{same, Tested, Tree};

fn bits(value: f64) -> u64 {
    value.to_bits()
}

/// Three nodes, two frames, three cells, two sensors, one actuator: lines 1 to 11.
fn whole() -> Vec<Row> {
    vec![
        [0, 3, 2, 3, 2, 1],
        [1, 0, 0, 0, 0, 0],
        [1, 1, 0, 0, 0, 0],
        [1, 2, 0, 0, 0, 0],
        [10, 0, 0, 1, 0, 0],
        [13, 0, 1, 0, bits(0.5), 0],
        [14, 1, 2, 1, bits(-1.0), bits(2.0)],
        [15, 1, 2, 0, bits(0.25), bits(3.0)],
        [20, 0, 1, 0, 0, 0],
        [20, 1, 2, 0, 0, 0],
        [30, 0, 2, 0, 0, 0],
    ]
}

/// The plan with one number changed: line and column from 1.
fn with(line: usize, column: usize, value: u64) -> Vec<u8> {
    let mut rows = whole();
    rows[line - 1][column - 1] = value;
    text::text(&rows)
}

/// The plan with one line changed: None takes it out.
fn lines(change: impl Fn(&mut Vec<Row>)) -> Vec<u8> {
    let mut rows = whole();
    change(&mut rows);
    text::text(&rows)
}

/// The plan with these bytes written at a place of a line from 1.
fn bytes(line: usize, at: usize, new: &[u8]) -> Vec<u8> {
    let mut plan = text::text(&whole());
    let start = (line - 1) * text::LINE + at;
    plan[start..start + new.len()].copy_from_slice(new);
    plan
}

fn plans() -> Vec<(Vec<u8>, &'static str)> {
    let longest = vec![b' '; 35_226];
    vec![
        (Vec::new(), "plan.txt: refusal 1: the text is empty"),
        (longest, "plan.txt: refusal 1: the text has 618 lines, the longest plan has 617"),
        (text::text(&whole())[1..].to_vec(), "plan.txt: refusal 1: the text has 626 bytes, no multiple of 57; line 1 has 56"),
        (bytes(3, 12, b"    "), "plan.txt:3: refusal 2: column 4 is blank"),
        (bytes(3, 20, b"x"), "plan.txt:3: refusal 2: initial pattern has 'x' in it, where only a digit can stand"),
        (bytes(5, 6, b"00"), "plan.txt:5: refusal 2: frame has a leading zero"),
        (bytes(7, 36, b"18446744073709551616"), "plan.txt:7: refusal 2: high is above 2^64 - 1"),
        (bytes(7, 0, b"abcd"), "plan.txt:7: refusal 2: kind has 'a' in it, where only a digit can stand"),
        (bytes(4, 56, b"\r"), "plan.txt:4: refusal 2: the line ends with '\\r' and not with a line feed"),
        (with(1, 1, 1), "plan.txt:1: refusal 3: kind is 1, the first line is the header, kind 0"),
        (with(1, 2, 8), "plan.txt:1: refusal 3: nodes is 8, a plan has 1 to 7"),
        (with(1, 3, 0), "plan.txt:1: refusal 3: frames is 0, a plan has 1 to 16"),
        (with(1, 4, 33), "plan.txt:1: refusal 3: cells is 33, a plan has 1 to 32"),
        (with(1, 5, 17), "plan.txt:1: refusal 3: sensors is 17, a plan has 1 to 16"),
        (with(1, 6, 9), "plan.txt:1: refusal 3: actuators is 9, a plan has 1 to 8"),
        (with(6, 1, 17), "plan.txt:6: refusal 4: kind is 17; the kinds are 0, 1, 10 to 16, 20 and 30"),
        (with(6, 1, 0), "plan.txt:6: refusal 4: the line is a second header"),
        (with(3, 1, 20), "plan.txt:3: refusal 4: the line is a vote, where cell 1 of 3 cells (0 to 2) is due"),
        (with(3, 2, 2), "plan.txt:3: refusal 4: cell is 2, the next one due is 1"),
        (with(5, 1, 1), "plan.txt:5: refusal 4: the line is a cell, and all 3 stand before it"),
        (with(10, 1, 11), "plan.txt:10: refusal 4: the line is a task (sum), after a vote"),
        (lines(|rows| rows.insert(11, [20, 1, 2, 0, 0, 0])), "plan.txt:12: refusal 4: the line is a vote, after an actuator"),
        (lines(|rows| rows.insert(11, [12, 1, 2, 0, 0, 0])), "plan.txt:12: refusal 4: the line is a task (diff), after an actuator"),
        (with(8, 2, 0), "plan.txt:8: refusal 4: frame is 0, after a task of frame 1; frames do not fall"),
        (lines(|rows| (0..61).for_each(|_| rows.insert(4, [16, 0, 0, 0, 0, 0]))), "plan.txt:69: refusal 4: the line is the 65th task, a plan has at most 64"),
        (lines(|rows| rows.swap(8, 9)), "plan.txt:10: refusal 4: the vote of frame 0, cell 1 follows that of frame 1, cell 2; votes rise"),
        (lines(|rows| rows[9] = rows[8]), "plan.txt:10: refusal 4: the vote of frame 0, cell 1 follows that of frame 0, cell 1; votes rise"),
        (with(11, 2, 1), "plan.txt:11: refusal 4: actuator is 1, the next one due is 0"),
        (lines(|rows| rows.push([30, 1, 0, 0, 0, 0])), "plan.txt:12: refusal 4: the line is an actuator, and all 1 stand before it"),
        (lines(|rows| rows.truncate(2)), "plan.txt:3: refusal 4: the text ends, and cells 1 to 2 are missing"),
        (lines(|rows| rows.truncate(3)), "plan.txt:4: refusal 4: the text ends, and cell 2 is missing"),
        (lines(|rows| rows.truncate(10)), "plan.txt:11: refusal 4: the text ends, and actuator 0 is missing"),
        (with(9, 2, 2), "plan.txt:9: refusal 5: frame is 2, the plan has 2 frames (0 to 1)"),
        (with(6, 3, 3), "plan.txt:6: refusal 5: target is 3, the plan has 3 cells (0 to 2)"),
        (with(5, 4, 2), "plan.txt:5: refusal 5: sensor is 2, the plan has 2 sensors (0 to 1)"),
        (with(6, 4, 9), "plan.txt:6: refusal 5: cell a is 9, the plan has 3 cells (0 to 2)"),
        (lines(|rows| rows[6] = [11, 1, 2, 0, 1 << 32, 0]), "plan.txt:7: refusal 5: cell b is 4294967296, the plan has 3 cells (0 to 2)"),
        (with(10, 3, 4), "plan.txt:10: refusal 5: cell is 4, the plan has 3 cells (0 to 2)"),
        (with(11, 3, 3), "plan.txt:11: refusal 5: cell is 3, the plan has 3 cells (0 to 2)"),
        (with(2, 3, 5), "plan.txt:2: refusal 5: column 3 is 5, it is unused in a cell and must be 0"),
        (with(6, 6, 7), "plan.txt:6: refusal 5: column 6 is 7, it is unused in a task (scale) and must be 0"),
        (with(6, 5, 0x7FF8 << 48), "plan.txt:6: refusal 5: factor is NaN, it must be finite"),
        (with(7, 5, 0xFFF0 << 48), "plan.txt:7: refusal 5: low is -inf, it must be finite"),
        (with(7, 6, 0x7FF0 << 48), "plan.txt:7: refusal 5: high is inf, it must be finite"),
        (with(7, 5, bits(2.5)), "plan.txt:7: refusal 5: low is 2.5, above high, which is 2"),
        (with(8, 5, u64::MAX), "plan.txt:8: refusal 5: rate is NaN, it must be finite"),
        (with(8, 6, 1 << 63), "plan.txt:8: refusal 5: cap is -0, its sign bit must be 0"),
        (with(8, 6, bits(-3.0)), "plan.txt:8: refusal 5: cap is -3, its sign bit must be 0"),
        (lines(|rows| rows.retain(|row| row[0] != 20 && row[0] != 14)), "plan.txt: refusal 6: cell 2 is never known for good, however long a node stays good: vote, or make from known cells"),
        (lines(|rows| drop(rows.drain(4..10))), "plan.txt: refusal 6: cells 0, 1 and 2 are never known for good, however long a node stays good: vote, or make from known cells"),
    ]
}

const RUN: &[u8] = b"   0   0                   0                   0\n";

/// Run lines under the plan, with the words for the first that is refused.
fn run_lines() -> Vec<(Vec<u8>, &'static str)> {
    let with = |at: usize, new: &[u8]| {
        let mut line = RUN.to_vec();
        line[at..at + new.len()].copy_from_slice(new);
        [RUN, &line].concat()
    };
    vec![
        (with(0, b"   8"), "run.txt:2: refusal 10: mask is 8, with 3 nodes (0 to 2) a mask is 0 to 7"),
        (with(4, b" 300"), "run.txt:2: refusal 10: fill is 300, a fill is 0 to 255"),
        (with(4, b" 256"), "run.txt:2: refusal 10: fill is 256, silence, which this program does not have yet; a fill is 0 to 255"),
        (with(0, b"   x"), "run.txt:2: refusal 10: mask has 'x' in it, where only a digit can stand"),
        (with(4, b"    "), "run.txt:2: refusal 10: fill is blank"),
        (with(28, b"18446744073709551616"), "run.txt:2: refusal 10: sensor 1 (s1) is above 2^64 - 1"),
        (with(26, b"01"), "run.txt:2: refusal 10: sensor 0 (s0) has a leading zero"),
        ([RUN, &RUN[..40]].concat(), "run.txt:2: refusal 10: the line has 40 bytes and no line feed; with 2 sensors (0 to 1) a run line has 49"),
        ([RUN, b"\n", RUN].concat(), "run.txt:2: refusal 10: the line has 1 bytes; with 2 sensors (0 to 1) a run line has 49"),
        ([&RUN[..48], b" \n"].concat(), "run.txt:1: refusal 10: no line feed stands at byte 49 of the line; with 2 sensors (0 to 1) a run line has 49"),
        (RUN.repeat(100_001), "run.txt:100001: refusal 10: a run has at most 100,000 lines"),
    ]
}

/// A whole report, letter by letter.
const REPORT: &str = "plan.txt:8: refusal 5: cap is -0, its sign bit must be 0
  |   15   1   2   0 4598175219545276416 9223372036854775808
  |                                     ^^^^^^^^^^^^^^^^^^^^ column 6, cap
  rule: frames, cells and sensors are below the header's numbers, unused columns are 0, constants are finite, low <= high as floats, cap has sign bit 0
";

const RUN_REPORT: &str = "run.txt:2: refusal 10: fill is 300, a fill is 0 to 255
  |    0 300                   0                   0
  |     ^^^^ column 2, fill
  rule: a run line is mask (width 4), fill (4), a pattern for each sensor (20), then a line feed; mask below 2^nodes, fill at most 255, at most 100,000 lines
";

/// Document 01's rules with the limits of today, in the words that are shown.
const RULES: [(u64, &str); 8] = [
    (1, "a plan text is 1 to 617 lines of 57 bytes, 35,169 bytes at most"),
    (2, "a line is six numbers, right-justified in columns of width 4, 4, 4, 4, 20, 20, then a line feed; only blanks before the digits, no leading zeros, nothing above 2^64 - 1"),
    (3, "the first line is the header, kind 0: nodes 1 to 7, frames 1 to 16, cells 1 to 32, sensors 1 to 16, actuators 1 to 8"),
    (4, "the order is: one header; cells 0 to C - 1; tasks (kinds 10 to 16), at most 64, frames not falling; votes, strictly rising by frame, then cell; actuators 0 to A - 1"),
    (5, "frames, cells and sensors are below the header's numbers, unused columns are 0, constants are finite, low <= high as floats, cap has sign bit 0"),
    (6, "after some number of good frames, whichever frame was the first, every cell must be known: voted, or made by a task from cells that are known"),
    (10, "a run line is mask (width 4), fill (4), a pattern for each sensor (20), then a line feed; mask below 2^nodes, fill at most 255, at most 100,000 lines"),
    (11, "histories are listed for plans of at most 5 nodes"),
];

/// The words of all refusals, on texts with one error each.
pub fn table(tree: &Tree) -> Tested {
    let plans = plans();
    let plan_report = |plan: &[u8]| match tree.programs.check(plan).map_err(|unable| unable.0)? {
        Checked::Accepted(_) => Err(String::from("a damaged plan is accepted")),
        Checked::Refused(refused) => {
            let line =
                refused.line.checked_sub(1).and_then(|index| plan.chunks(text::LINE).nth(index));
            Ok((
                refused,
                cause::report("plan.txt", refused, cause::of_plan(plan, None).as_ref(), line),
            ))
        }
    };
    for (plan, words) in &plans {
        let (_, report) = plan_report(plan).map_err(|report| format!("{report}: {words}"))?;
        same("a plan's refusal", report.lines().next(), Some(*words))?;
    }
    let plan = text::text(&whole());
    let runs = run_lines();
    for (run, words) in &runs {
        let listing = tree.programs.output_on("run", &[("plan.txt", &plan), ("run.txt", run)]);
        let Some(refused) = refusal(&listing.map_err(|unable| unable.0)?) else {
            return Err(format!("a damaged run is not refused: {words}"));
        };
        let header = whole()[0];
        let found = cause::of_run(&header, &Names::made_up(&header), run, refused.line);
        let report = cause::report("run.txt", refused, found.as_ref(), None);
        same("a run line's refusal", report.lines().next(), Some(*words))?;
    }
    let (header, refused) = (whole()[0], cause::Refusal { number: 10, line: 2 });
    let run = &runs[1].0;
    let found = cause::of_run(&header, &Names::made_up(&header), run, 2);
    let report = cause::report("run.txt", refused, found.as_ref(), Some(&run[RUN.len()..]));
    same("a run line's whole report", report.as_str(), RUN_REPORT)?;
    for (number, words) in RULES {
        same("a rule", cause::rule(number), words)?;
    }
    let (refused, whole) = plan_report(&with(8, 6, 1 << 63))?;
    same("a whole report", whole.as_str(), REPORT)?;
    // Where the cause is of another refusal, only number, line and rule are told.
    let other = Cause {
        refusal: cause::Refusal { number: 4, line: 8 },
        column: None,
        cells: Vec::new(),
        words: String::from("other"),
    };
    let bare = cause::report("plan.txt", refused, Some(&other), Some(b"a line\n"));
    same("no cause", bare, format!("plan.txt:8: refusal 5: {}\n", cause::rule(5)))?;
    Ok(format!("{} damaged plan texts, {} damaged runs", plans.len(), runs.len()))
}
