//! `show`: on the examples letter by letter, and on made-up runs every number beside the listing's.

use std::fs;

use super::cases::case;
use super::listing::listing;
use super::plan;
use super::promise;
use super::view::folder::{followed, Accepted, Origin, Plan, RunFile};
use super::view::listing::{Run, State};
use super::view::names::Names;
use super::view::{pattern, show, text};
use super::{each, same, Tested, Tree};

pub const EXAMPLES: [&str; 7] = ["k", "press", "cutter", "numbering", "weakening", "outage", "tie"];

/// A run of the reference's generator, followed by the proved program; None if its plan is refused.
pub fn run(
    tree: &Tree,
    plan_text: Vec<u8>,
    run_text: Vec<u8>,
) -> Result<Option<(Run, Names)>, String> {
    let Ok(read) = plan::read(&plan_text) else { return Ok(None) };
    let rows = text::rows(&plan_text);
    let names = Names::made_up(&rows[0]);
    let plan = Plan { file: String::from("plan.txt"), text: plan_text, origin: Origin::Text(None) };
    let accepted = Accepted { plan, rows, period: read.period, names: names.clone() };
    let file = RunFile { file: String::from("run.txt"), text: run_text, named: None };
    match followed(&accepted, &file, &tree.programs) {
        Ok(run) => Ok(Some((run, names))),
        Err(_) => Err(String::from("the run cannot be followed")),
    }
}

/// The table of a run, read back: frame, bad nodes, states, equal, agreement, setpoints, marks.
pub fn check_table(run: &Run, names: &Names) -> Result<(), String> {
    let table = show::table(run, names, true);
    let lines = table.lines().skip(4).take(run.frames.len());
    let quiet = &run.without_faults;
    let mut promised = true;
    for ((frame, line), expected) in lines.enumerate().zip(&run.frames) {
        promised &= 2 * expected.working > run.nodes() as u64;
        let words: Vec<&str> = line.split_whitespace().collect();
        let bad = (0..run.nodes()).filter(|node| run.masks[frame] >> node & 1 == 1).count();
        let states = &words[1 + bad.max(1)..];
        same("the frame", words[0], &format!("{frame}{}", if promised { "" } else { "!" }))?;
        same(
            "bad nodes",
            states[..run.nodes()].iter().filter(|state| **state == "BAD").count(),
            bad,
        )?;
        same(
            "working nodes",
            states[..run.nodes()].iter().filter(|state| **state == "ok").count() as u64,
            expected.working,
        )?;
        let rest = &states[run.nodes()..];
        same("equal", rest[0], &expected.equal.to_string())?;
        same("agreement", rest[1], &expected.agreement.to_string())?;
        for (actuator, word) in rest[2..].iter().enumerate() {
            let bits = expected.setpoints[actuator];
            let value = word.trim_end_matches('*');
            match f64::from_bits(bits).is_finite() {
                true => same("a setpoint", pattern::read(value), Ok(bits))?,
                false => same("a setpoint", value, &pattern::shown(bits))?,
            }
            same("a mark", word.ends_with('*'), bits != quiet[frame].setpoints[actuator])?;
        }
    }
    Ok(())
}

/// The frames of a row: `7` or `8-40`, with a mark behind them where nothing is promised.
fn frames_of(word: &str) -> Option<std::ops::RangeInclusive<usize>> {
    let word = word.strip_suffix('!').unwrap_or(word);
    let (first, last) = word.split_once('-').unwrap_or((word, word));
    Some(first.parse().ok()?..=last.parse().ok()?)
}

/// A number as it is, or to four digits where that moves it by a thousandth of the range at most.
fn is_shown(word: &str, value: f64, range: f64) -> bool {
    let shown: f64 = word.parse().unwrap_or(f64::NAN);
    shown == value || (shown - value).abs() <= range / 1000.0
}

/// Of a long run: every frame once, those that share a row alike in all but moving setpoints, of
/// which the least and the greatest are shown.
pub fn check_short_table(run: &Run, names: &Names) -> Result<(), String> {
    let table = show::table(run, names, false);
    let (mut due, mut rows) = (0, 0);
    let half = |frame: usize| 2 * run.frames[frame].working <= run.nodes() as u64;
    let end = (0..run.frames.len()).find(|&frame| half(frame)).unwrap_or(run.frames.len());
    for line in table.lines().skip(4) {
        let words: Vec<&str> = line.split_whitespace().collect();
        let Some(frames) = words.first().and_then(|word| frames_of(word)) else { break };
        same("the next frame", *frames.start(), due)?;
        due = *frames.end() + 1;
        let (first, setpoints) = (due - frames.clone().count(), words.len() - run.actuators());
        for frame in frames.clone() {
            same("a mark of the promise", words[0].ends_with('!'), frame >= end)?;
            let alike = |frame: usize| {
                let line = &run.frames[frame];
                (run.masks[frame], line.working, line.equal, line.agreement)
            };
            same("frames in one row", alike(frame), alike(first))
                .map_err(|report| report + &table)?;
        }
        let states = run.states[first].iter().zip(&run.states[due - 1]);
        let wanted: Vec<String> = states.map(|(&first, &last)| state_word(first, last)).collect();
        same(
            "states",
            words[setpoints - 2 - run.nodes()..setpoints - 2].join(" "),
            wanted.join(" "),
        )?;
        rows += 1;
        for (actuator, word) in words[setpoints..].iter().enumerate() {
            let values = || {
                frames.clone().map(|frame| f64::from_bits(run.frames[frame].setpoints[actuator]))
            };
            let patterns = |value: f64| value.to_bits();
            if values().map(patterns).all(|bits| bits == values().next().map_or(0, patterns)) {
                continue;
            }
            for frame in frames.clone() {
                same("a mark", run.differs(frame, actuator), word.ends_with('*'))?;
            }
            let (ends, gaps) = word
                .trim_end_matches('*')
                .split_once(",NaN")
                .map_or((word.trim_end_matches('*'), false), |(ends, _)| (ends, true));
            same("NaN in a row", gaps || ends == "NaN", values().any(f64::is_nan))?;
            let Some((least, greatest)) = ends.split_once("..") else { continue };
            let numbers = || values().filter(|value| !value.is_nan());
            let (low, high) = (
                numbers().fold(f64::INFINITY, f64::min),
                numbers().fold(f64::NEG_INFINITY, f64::max),
            );
            same("least", is_shown(least, low, high - low), true)?;
            same("greatest", is_shown(greatest, high, high - low), true)?;
        }
    }
    same("frames shown", due, run.frames.len()).map_err(|report| report + &table)?;
    // Frames that are alike share rows: each change has a row, and those behind it one.
    let counts = |frame: usize| (run.frames[frame].equal, run.frames[frame].agreement);
    let kinds = |frame: usize| {
        run.states[frame]
            .iter()
            .map(|&state| state_word(state, state).replace(char::is_numeric, ""))
            .collect::<Vec<_>>()
    };
    let marks = |frame: usize| {
        (0..run.actuators()).map(|actuator| run.differs(frame, actuator)).collect::<Vec<_>>()
    };
    let changed = |frame: &usize| {
        counts(*frame) != counts(*frame - 1)
            || kinds(*frame) != kinds(*frame - 1)
            || marks(*frame) != marks(*frame - 1)
    };
    let changes = (1..run.frames.len()).filter(changed).count();
    match run.frames.len() <= 50 || rows <= 2 * changes + 3 {
        true => Ok(()),
        false => Err(format!("{rows} rows for {changes} changes\n{table}")),
    }
}

fn state_word(first: State, last: State) -> String {
    match (first, last) {
        (State::Bad, _) => String::from("BAD"),
        (State::Working, _) => String::from("ok"),
        (State::Recovering(first), State::Recovering(last)) if first != last => {
            format!("+{first}-{last}")
        }
        (State::Recovering(count), _) => format!("+{count}"),
    }
}

/// A run with one state that is not the listing's is not shown.
fn check_held(mut run: Run, seed: u64) -> Result<(), String> {
    same("held to the listing", run.is_listed(), true)?;
    let Some(frame) = (seed as usize).checked_rem(run.frames.len()) else { return Ok(()) };
    let state = &mut run.states[frame][0];
    *state = if *state == State::Working { State::Recovering(1) } else { State::Working };
    same("held to the listing", run.is_listed(), false)
}

pub fn all(tree: &Tree) -> Tested {
    for example in EXAMPLES {
        let folder = tree.root.join("examples").join(example);
        let output = super::verbs::call(tree, &["show", &folder.display().to_string()]);
        let expected = fs::read_to_string(folder.join("show.txt"))
            .map_err(|error| format!("{example}/show.txt: {error}"))?;
        same(example, output.out, expected)?;
    }
    let one = |seed: u64, counts: &mut [u64; 4]| {
        let case = case(seed);
        let (Some(plan), Some(text)) = (case.plan, case.run) else { return Ok(()) };
        if text.len() > 400_000 {
            return Ok(());
        }
        let listed = listing(&plan, &text).bytes;
        let Some((run, names)) = run(tree, plan, text)? else { return Ok(()) };
        let end = promise::of_listing(&listed, run.nodes());
        same("where the promise ends", run.promise_end, end.map(|(end, _)| end))?;
        if !run.frames.is_empty() {
            let table = show::table(&run, &names, false);
            let words = promise::words(run.nodes(), end);
            same("the promise", table.lines().nth(1), Some(words.as_str()))?;
        }
        check_table(&run, &names)?;
        check_short_table(&run, &names)?;
        check_held(run.clone(), seed)?;
        counts[0] += 1;
        counts[1] += run.frames.len() as u64;
        counts[2] += (0..run.frames.len()).filter(|&frame| run.any_differs(frame)).count() as u64;
        counts[3] += u64::from(end.is_some());
        Ok(())
    };
    let sum = each(800, one, |sum: &mut [u64; 4], count| (0..4).for_each(|i| sum[i] += count[i]))?;
    match sum[0] > 150 && sum[2] > 500 && sum[3] > 50 && sum[0] - sum[3] > 50 {
        true => Ok(format!("{} examples; {} runs of {} frames, every number and mark as listed, {} frames with a mark; in {} runs the promise ends, where the reference's listing says", EXAMPLES.len(), sum[0], sum[1], sum[2], sum[3])),
        false => Err(format!("too few runs: {sum:?}")),
    }
}
