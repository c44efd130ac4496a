//! The listing as a table for people.

use std::ops::RangeInclusive;

use super::listing::{Run, State};
use super::names::Names;
use super::pattern::shown;
use super::runs::nodes;
use super::text::Row;

/// Of runs with more frames, those that are alike share a row.
const SHORT: usize = 50;

/// `100,000`
pub fn grouped(number: usize) -> String {
    let digits = number.to_string();
    let mut out = String::new();
    for (index, digit) in digits.chars().enumerate() {
        if index > 0 && (digits.len() - index) % 3 == 0 {
            out.push(',');
        }
        out.push(digit);
    }
    out
}

fn plural(count: usize, what: &str) -> String {
    format!("{} {what}{}", grouped(count), if count == 1 { "" } else { "s" })
}

/// `5 nodes, 2 frames, 13 cells, R = 3`
pub fn sizes(header: &Row, period: usize) -> String {
    let [_, nodes, frames, cells, _, _] = header.map(|number| number as usize);
    let sizes = [plural(nodes, "node"), plural(frames, "frame"), plural(cells, "cell")];
    format!("{}, R = {period}", sizes.join(", "))
}

/// What a run comes to, in one line.
pub fn summary(run: &Run) -> String {
    let off = (0..run.frames.len()).filter(|&frame| run.any_differs(frame)).count();
    let off = match off {
        0 => String::from("every setpoint as without faults"),
        _ => format!("setpoints off in {}", plural(off, "frame")),
    };
    let (frames, faults) = (run.frames.len(), run.faults.len());
    let ended = run.refusal.map_or(String::new(), |refusal| {
        format!(", ended by refusal {} of line {}", refusal.number, refusal.line)
    });
    if frames == 0 {
        return format!("no frame run{ended}");
    }
    format!("{} run, {}, {off}{ended}", plural(frames, "frame"), plural(faults, "fault"))
}

/// How far the promise goes, in one line.
pub fn promise(run: &Run) -> String {
    match run.promise_end {
        None => String::from(
            "right setpoints are promised in every frame: more than half of the nodes work in each",
        ),
        Some(end) => format!(
            "nothing is promised from frame {end} on until the next power-on: in frame {end} not more than half of the nodes work ({} of {})",
            run.frames[end].working,
            run.nodes()
        ),
    }
}

/// Whether a frame's nodes, counts and marks are those of the frame before it. Setpoints that move
/// and a recovering node's count are no change: on a running press they are in every frame.
fn is_alike(run: &Run, frame: usize) -> bool {
    let kind = |state: &State| std::mem::discriminant(state);
    let states = |frame: usize| run.states[frame].iter().map(kind);
    let counts = |frame: usize| (run.frames[frame].equal, run.frames[frame].agreement);
    let marks =
        |frame: usize| (0..run.actuators()).map(move |actuator| run.differs(frame, actuator));
    states(frame).eq(states(frame - 1))
        && counts(frame) == counts(frame - 1)
        && run.is_promised(frame) == run.is_promised(frame - 1)
        && marks(frame).eq(marks(frame - 1))
}

/// The frames of each row: one by one, or of a long run each that changed and those alike behind it.
fn rows(run: &Run, all: bool) -> Vec<RangeInclusive<usize>> {
    let count = run.frames.len();
    let single = |frame: usize| {
        all || count <= SHORT || frame == 0 || frame + 1 == count || !is_alike(run, frame)
    };
    let mut rows: Vec<RangeInclusive<usize>> = Vec::new();
    let mut joins = false;
    for frame in 0..count {
        match (single(frame), rows.last_mut()) {
            (false, Some(last)) if joins => *last = *last.start()..=frame,
            _ => rows.push(frame..=frame),
        }
        joins = !single(frame);
    }
    rows
}

fn state(first: State, last: State) -> String {
    match (first, last) {
        (State::Bad, _) => String::from("BAD"),
        (State::Recovering(from), State::Recovering(to)) if from < to => format!("+{from}-{to}"),
        (State::Recovering(count), _) => format!("+{count}"),
        (State::Working, _) => String::from("ok"),
    }
}

/// The values of a setpoint in some frames: one, or the least and the greatest to four digits.
fn setpoint(run: &Run, frames: &RangeInclusive<usize>, actuator: usize) -> String {
    let patterns = || frames.clone().map(|frame| run.frames[frame].setpoints[actuator]);
    let first = run.frames[*frames.start()].setpoints[actuator];
    if patterns().all(|pattern| pattern == first) {
        return shown(first);
    }
    let values = || patterns().map(f64::from_bits).filter(|value| !value.is_nan());
    let (least, greatest) = (values().reduce(f64::min), values().reduce(f64::max));
    let ends = least.zip(greatest).map(|(least, greatest)| {
        // Four digits, where that moves a value by less than a thousandth of the range.
        let round = |value: f64| {
            let four: f64 = format!("{value:.3e}").parse().unwrap_or(value);
            let is_near = (four - value).abs() <= (greatest - least) / 1000.0;
            shown(if is_near { four } else { value }.to_bits())
        };
        format!("{}..{}", round(least), round(greatest))
    });
    let gaps =
        patterns().any(|pattern| f64::from_bits(pattern).is_nan()).then(|| String::from("NaN"));
    [ends, gaps].into_iter().flatten().collect::<Vec<_>>().join(",")
}

fn row(run: &Run, frames: &RangeInclusive<usize>) -> Vec<String> {
    let (first, last) = (*frames.start(), *frames.end());
    let line = &run.frames[first];
    let mut number = if first == last { first.to_string() } else { format!("{first}-{last}") };
    if run.promise_end.is_some() {
        number.push(if run.is_promised(first) { ' ' } else { '!' });
    }
    let bad = Some(nodes(run.masks[first])).filter(|bad| !bad.is_empty());
    let mut row = vec![number, bad.unwrap_or_else(|| String::from("-"))];
    let states = run.states[first].iter().zip(&run.states[last]);
    row.extend(states.map(|(&first, &last)| state(first, last)));
    row.extend([line.equal.to_string(), line.agreement.to_string()]);
    row.extend((0..run.actuators()).map(|actuator| {
        let mark = if run.differs(first, actuator) { '*' } else { ' ' };
        format!("{}{mark}", setpoint(run, frames, actuator))
    }));
    row
}

/// The table, and what the words in it mean.
pub fn table(run: &Run, names: &Names, all: bool) -> String {
    let about = format!("{}; {}\n", sizes(&run.header, run.period), summary(run));
    if run.frames.is_empty() {
        return about;
    }
    let frame = if run.promise_end.is_some() { "frame " } else { "frame" };
    let mut head = vec![String::from(frame), String::from("bad")];
    head.extend((0..run.nodes()).map(|node| format!("n{node}")));
    head.extend([String::from("equal"), String::from("agree")]);
    head.extend(names.actuators.iter().map(|name| format!("{name} ")));
    let frames = rows(run, all);
    let shared = frames.len() < run.frames.len();
    let mut lines = vec![head];
    lines.extend(frames.iter().map(|frames| row(run, frames)));
    let width = |column: usize| lines.iter().map(|line| line[column].chars().count()).max();
    let widths: Vec<_> = (0..lines[0].len()).map(|column| width(column).unwrap_or(0)).collect();
    let padded = |line: &Vec<String>| {
        let cells = line.iter().zip(&widths).map(|(cell, &width)| format!("{cell:>width$}"));
        format!("{}\n", cells.collect::<Vec<_>>().join("  ").trim_end())
    };
    let table: String = lines.iter().map(padded).collect();
    format!("{about}{}\n\n{table}\n{}", promise(run), legend(run, shared))
}

fn legend(run: &Run, shared: bool) -> String {
    let nodes = match run.nodes() {
        1 => String::from("n0"),
        count => format!("n0 to n{}", count - 1),
    };
    let mut out = format!(
        "{nodes}: ok working; BAD bad; +1, +2 and so on: recovering, good for so many frames, working from the frame after +{} on\n\
         equal: nodes whose memory is that of a controller that never failed; agree: the least agreement of a good node\n",
        run.period
    );
    if run.promise_end.is_some() {
        out += "!: nothing is promised, also where nodes are ok again and setpoints right: the promise is for runs with more than half of the nodes working in every frame since power-on\n";
    }
    if (0..run.frames.len()).any(|frame| run.any_differs(frame)) {
        out += "*: not what a press without faults gets (the same run with nobody bad, by the proved program)\n";
    }
    if shared {
        out += "a row of several frames: nodes, counts and marks are the same in all, setpoints from least to greatest, to four digits where these tell them apart; --all shows each\n";
    }
    out
}
