//! The cases: the calls of a case follow from its seed alone.

use super::both::{Both, Compared, Record, Words};
use super::calls::{
    listing_line_length, GOOD_AT, HANDED_AT, MEMORY_WORDS, PLAN_WORDS, RUN_WORDS, SYSTEM_WORDS,
};
use super::damage;
use super::draw::{accepted, damaged, plan_rows, stray, wrong_length, Draw};
use super::frame::{message_length, plane};
use super::generate::{never, plan_text, quick, run, slowest, Masks, OUTSIDE};
use super::listing::{listing, run_line_length};
use super::plan::{number, Plan, Row};
use super::random::{strange, Random, Values};

pub const CLASSES: [&str; 13] = [
    "plan texts",
    "plan texts",
    "damaged words",
    "damaged words",
    "one node",
    "one node",
    "any system",
    "list inside the premise",
    "list outside the premise",
    "boards",
    "histories",
    "any run",
    "whole listing",
];

pub fn class_of(seed: u64) -> &'static str {
    CLASSES[(seed % CLASSES.len() as u64) as usize]
}

/// Makes the calls of a case; the error is the report of a difference.
pub fn case(seed: u64, both: &mut Both) -> Compared<()> {
    let r = both.r;
    let values = &Values::new(r);
    let rows = plan_rows(r, values);
    if seed % 50 == 0 {
        both.version()?;
    }
    match class_of(seed) {
        "plan texts" => texts(both, values, &rows),
        "damaged words" => words(both, values, &rows),
        "one node" => node(both, values, &rows),
        "any system" => system(both, values, &rows),
        "list inside the premise" => list(both, values, &rows, Masks::Premise, usual_length),
        "list outside the premise" => list(both, values, &rows, r.pick(&OUTSIDE), usual_length),
        "boards" => boards(both, values, &rows),
        "histories" => histories(both, values, &rows),
        "any run" => any_run(both, values, &rows),
        _ => whole_listing(both, values, &rows),
    }
}

pub const LONG_CLASSES: [&str; 5] = [
    "long list, R = 513",
    "long list, R above 60",
    "long list, R above 60",
    "long list",
    "long list outside the premise",
];

pub fn long_class_of(seed: u64) -> &'static str {
    LONG_CLASSES[(seed % LONG_CLASSES.len() as u64) as usize]
}

/// A list of more than 40 frames, long enough for nodes to recover.
pub fn long_case(seed: u64, both: &mut Both) -> Compared<()> {
    let r = both.r;
    let values = &Values::new(r);
    let class = long_class_of(seed);
    let rows = match class {
        "long list, R = 513" => slowest(r, values, true),
        "long list, R above 60" => slowest(r, values, false),
        _ => plan_rows(r, values),
    };
    let masks = match class {
        "long list outside the premise" => r.pick(&OUTSIDE),
        _ => Masks::Seldom,
    };
    let length = |r: &Random, plan: &Plan| match class {
        "long list outside the premise" => r.between(41, 300),
        _ => (2 * plan.period + r.between(10, 30)).max(r.between(41, 300)),
    };
    list(both, values, &rows, masks, length)
}

// ---- plan texts

/// A text that is whole, damaged, of a plan without a recovery period, or no text at all.
fn text(r: &Random, values: &Values, rows: &[Row]) -> Vec<u8> {
    let whole = || rows.to_vec();
    let way = r.below(1000);
    match r.below(12) {
        0 => plan_text(&never(r, values)),
        1 => damage::length(r, plan_text(rows), way),
        2 | 3 => damage::form(r, whole(), way),
        4 => damage::header(r, whole(), way),
        5 | 6 => damage::order(r, whole(), way),
        7 | 8 => {
            // A way that damages a line of a kind that the plan has.
            let has = |&kind: &usize| rows.iter().any(|row| row[0] == damage::KINDS[kind]);
            let kinds: Vec<_> = (0..damage::KINDS.len()).filter(has).collect();
            damage::rules(r, whole(), r.pick(&kinds) + damage::KINDS.len() * way)
        }
        9 => damage::several(r, whole(), way),
        10 if r.one_in(8) => (0..57 * r.below(20)).map(|_| r.next() as u8).collect(),
        _ => plan_text(rows),
    }
}

/// A place for words, with something in it.
fn any_words(r: &Random, count: usize) -> Record {
    (0..count).map(|_| r.pick(&[0, strange(r)])).collect()
}

fn texts(both: &mut Both, values: &Values, rows: &[Row]) -> Compared<()> {
    let r = both.r;
    for _ in 0..12 {
        let text = text(r, values, rows);
        let mut words = any_words(r, PLAN_WORDS);
        if both.plan_read(&text, &mut words)? == 0 {
            read_plan(both, values, words)?;
        }
    }
    Ok(())
}

/// The calls on the words that a text gave.
fn read_plan(both: &mut Both, values: &Values, words: Vec<u64>) -> Compared<()> {
    let words = Words::new(words);
    let Some(plan) = &words.plan else {
        return Err(String::from("the words of an accepted text are no plan\n"));
    };
    let draw = Draw { r: both.r, values, plan, wrong: 0 };
    both.plan_check(&words)?;
    both.plan_period(&words, &mut draw.number())?;
    both.sizes(&words)?;
    for _ in 0..3 {
        both.plan_write(&words, &mut draw.text(&words), &mut draw.number())?;
    }
    Ok(())
}

// ---- single calls

/// The records that calls go on with.
struct State {
    memory: Record,
    system: Record,
    run: Record,
}

#[derive(Clone, Copy)]
enum Call {
    Check,
    Period,
    Sizes,
    Write,
    Histories,
    PowerOn,
    Compute,
    Message,
    Vote,
    Setpoints,
    Single,
    Start,
    Frame,
    Working,
    Equal,
    Next,
    Refusal,
}

use Call::*;

const NODE: [Call; 9] =
    [PowerOn, Compute, Compute, Message, Message, Vote, Vote, Setpoints, Single];
const SYSTEM: [Call; 6] = [Start, Frame, Frame, Frame, Working, Equal];
const RUN: [Call; 6] = [Next, Next, Next, Next, Next, Refusal];
#[rustfmt::skip]
const ALL: [Call; 17] = [
    Check, Period, Sizes, Write, Histories, PowerOn, Compute, Message, Vote, Setpoints, Single,
    Start, Frame, Working, Equal, Next, Refusal,
];

/// Makes one call with drawn arguments.
fn make(both: &mut Both, draw: &Draw, plan: &Words, state: &mut State, call: Call) -> Compared<()> {
    let r = draw.r;
    if r.one_in(3) {
        state.memory = draw.memory();
    }
    if r.one_in(4) {
        state.system = draw.system(&state.memory);
    }
    if r.one_in(3) {
        state.run = draw.run(&state.memory);
    }
    let State { memory, system, run } = state;
    let number = &mut draw.number();
    match call {
        Check => both.plan_check(plan)?,
        Period => both.plan_period(plan, number)?,
        Sizes => both.sizes(plan).map(|_| 0)?,
        Write => both.plan_write(plan, &mut draw.text(plan), number)?,
        Histories => {
            let length = draw.frames();
            both.histories(plan, length, draw.masks(plan, length)).map(|_| 0)?
        }
        PowerOn => both.node_power_on(plan, memory)?,
        Compute => both.node_compute(plan, memory, &draw.sensors())?,
        Message => both.node_message(plan, memory, &mut draw.message())?,
        Vote => both.node_vote(plan, memory, &draw.mailbox(memory), number)?,
        Setpoints => both.node_setpoints(plan, memory, &mut draw.setpoints())?,
        Single => both.single_frame(plan, memory, &draw.sensors(), &mut draw.setpoints())?,
        Start => both.system_power_on(plan, system)?,
        Frame => {
            let (sensors, mask) = (draw.sensors(), draw.mask());
            let faults = draw.faults(system, &sensors);
            if r.one_in(2) {
                draw.remember(system, &sensors, mask, &faults);
            }
            let place = &mut draw.setpoints();
            both.frame(plan, system, &sensors, mask, &faults, place, number)?
        }
        Working => both.system_working(plan, system, draw.mask(), number)?,
        Equal => both.system_equal(plan, system, memory, number)?,
        Next => {
            let rest = draw.rest();
            if r.one_in(2) {
                draw.remember_line(run, &rest);
            }
            both.next(plan, run, &rest, &mut draw.line(), number)?
        }
        Refusal => both.listing_refusal(draw.answer(), &mut draw.refusal(), number)?,
    };
    Ok(())
}

fn make_any(
    both: &mut Both,
    draw: &Draw,
    plan: &Words,
    calls: &[Call],
    count: usize,
) -> Compared<()> {
    let memory = draw.memory();
    let (system, run) = (draw.system(&memory), draw.run(&memory));
    let mut state = State { memory, system, run };
    for _ in 0..count {
        make(both, draw, plan, &mut state, draw.r.pick(calls))?;
    }
    Ok(())
}

/// All calls with words that are no plan, or another one than before.
fn words(both: &mut Both, values: &Values, rows: &[Row]) -> Compared<()> {
    let r = both.r;
    let (plan, right) = accepted(rows);
    for _ in 0..6 {
        let words = damaged(r, &plan, &right.words);
        let shape = words.plan.as_ref().unwrap_or(&plan);
        let draw = Draw { r, values, plan: shape, wrong: r.pick(&[0, 4, 20]) };
        both.plan_check(&words)?;
        make_any(both, &draw, &words, &ALL, 8)?;
    }
    Ok(())
}

fn node(both: &mut Both, values: &Values, rows: &[Row]) -> Compared<()> {
    let (plan, words) = accepted(rows);
    let draw = Draw { r: both.r, values, plan: &plan, wrong: both.r.pick(&[0, 0, 15, 6]) };
    make_any(both, &draw, &words, &NODE, 50)
}

fn system(both: &mut Both, values: &Values, rows: &[Row]) -> Compared<()> {
    let (plan, words) = accepted(rows);
    let draw = Draw { r: both.r, values, plan: &plan, wrong: both.r.pick(&[0, 0, 20, 6]) };
    make_any(both, &draw, &words, &SYSTEM, 50)
}

fn any_run(both: &mut Both, values: &Values, rows: &[Row]) -> Compared<()> {
    let (plan, words) = accepted(rows);
    let draw = Draw { r: both.r, values, plan: &plan, wrong: both.r.pick(&[0, 0, 20, 6]) };
    make_any(both, &draw, &words, &RUN, 40)
}

/// Histories of a plan, mostly of one with a short period: longer ones give the same lists.
fn histories(both: &mut Both, values: &Values, rows: &[Row]) -> Compared<()> {
    let r = both.r;
    let short = quick(r, values);
    let (plan, words) = accepted(if r.one_in(4) { rows } else { &short });
    let draw = Draw { r, values, plan: &plan, wrong: 0 };
    for _ in 0..if plan.nodes > 5 { 8 } else { 40 } {
        let length = draw.frames();
        both.histories(&words, length, draw.masks(&words, length))?;
    }
    Ok(())
}

// ---- lists of frames from power-on

fn usual_length(_: &Random, plan: &Plan) -> usize {
    (3 * plan.period).clamp(12, 40)
}

/// Masks and sensors of a run, from its text.
fn frames(
    r: &Random,
    plan: &Plan,
    values: &Values,
    masks: Masks,
    count: usize,
) -> Vec<(u64, Vec<u64>)> {
    let text = run(r, plan, values, masks, count);
    let column = |bytes: &[u8]| number(bytes).expect("a whole run line");
    let line = |line: &[u8]| {
        let sensors = line[8..line.len() - 1].chunks_exact(20).map(column).collect();
        (column(&line[..4]), sensors)
    };
    text.chunks_exact(run_line_length(plan)).map(line).collect()
}

/// The masks of the frames so far, newest last, and whether the premise held in all of them.
struct Premise<'a> {
    plan: &'a Plan,
    masks: Vec<u64>,
    held: bool,
}

impl Premise<'_> {
    /// Whether a node was good in the last `count` frames, or in all if there are fewer.
    fn good_for(&self, node: usize, count: usize) -> bool {
        self.masks.iter().rev().take(count).all(|mask| mask >> node & 1 == 0)
    }

    /// How many nodes were bad just before the last R frames: they work in the next one.
    fn again(&self) -> u64 {
        let period = self.plan.period;
        let before = self.masks.len().checked_sub(1 + period).map_or(0, |at| self.masks[at]);
        let again = |&node: &usize| before >> node & 1 == 1 && self.good_for(node, period);
        (0..self.plan.nodes).filter(again).count() as u64
    }

    fn recovered(&self) -> impl Iterator<Item = usize> + '_ {
        (0..self.plan.nodes).filter(|&node| self.good_for(node, self.plan.period))
    }

    /// "More than half of the nodes good in it and in the R frames before it, or in all before it
    /// if fewer."
    fn frame(&mut self, mask: u64) {
        self.masks.push(mask);
        let good = |&node: &usize| self.good_for(node, self.plan.period + 1);
        self.held &= 2 * (0..self.plan.nodes).filter(good).count() > self.plan.nodes;
    }

    /// Inside the premise the working nodes send the same, to all.
    fn agree(&self, agreement: usize) -> Compared<()> {
        let works = |&node: &usize| self.good_for(node, self.plan.period + 1);
        let working = (0..self.plan.nodes).filter(works).count();
        match agreement >= working {
            true => Ok(()),
            false => Err(format!("agreement {agreement}, nodes working {working}\n")),
        }
    }
}

/// A node's memory in a system.
fn memory_in(system: &[u64], node: usize) -> &[u64] {
    &system[MEMORY_WORDS * node..MEMORY_WORDS * (node + 1)]
}

fn list(
    both: &mut Both,
    values: &Values,
    rows: &[Row],
    masks: Masks,
    length: impl Fn(&Random, &Plan) -> usize,
) -> Compared<()> {
    let r = both.r;
    let (plan, words) = accepted(rows);
    let long = [plan.period > 60, plan.period == 513].map(u64::from);
    let right = Draw { r, values, plan: &plan, wrong: 0 };
    let mut single = right.memory();
    let mut system = right.system(&single);
    both.node_power_on(&words, &mut single)?;
    both.system_power_on(&words, &mut system)?;
    let mut initial = right.setpoints();
    both.node_setpoints(&words, &single, &mut initial)?;
    if system[HANDED_AT..HANDED_AT + plan.actuators] != initial[..] {
        return Err(String::from("at power-on others are remembered than the initial patterns\n"));
    }
    let mut premise = Premise { plan: &plan, masks: Vec::new(), held: true };
    for (mask, sensors) in frames(r, &plan, values, masks, length(r, &plan)) {
        let faults = right.faults(&system, &sensors);
        while r.one_in(4) {
            refused_frame(both, &right, &words, &system, &sensors, mask, &faults)?;
        }
        if r.one_in(3) {
            stray(r, &plan, &mut system);
        }
        both.system_working(&words, &system, mask, &mut right.number())?;
        let (mut place, mut expected) = (right.setpoints(), right.setpoints());
        let agreement = &mut right.number();
        both.frame(&words, &mut system, &sensors, mask, &faults, &mut place, agreement)?;
        both.single_frame(&words, &mut single, &sensors, &mut expected)?;
        both.system_equal(&words, &system, &single, &mut right.number())?;
        premise.frame(mask);
        match premise.held {
            true => both.totals.inside += 1,
            false => both.totals.outside += 1,
        }
        if premise.held {
            demand_3(both, &premise, &system, &single, &place, &expected)?;
            premise.agree(*agreement)?;
            both.totals.long[3] += premise.again() * long[0];
            both.totals.long[4] += premise.again() * long[1];
        }
    }
    both.totals.long[0] += premise.masks.len().saturating_sub(40) as u64;
    both.totals.long[1] += long[0];
    both.totals.long[2] += long[1];
    Ok(())
}

/// Inside the premise the voted setpoints are the single controller's, and so are the memories of
/// nodes that were good for the last R frames.
fn demand_3(
    both: &mut Both,
    premise: &Premise,
    system: &[u64],
    single: &[u64],
    place: &[u64],
    expected: &[u64],
) -> Compared<()> {
    let frame = premise.masks.len() - 1;
    if place != expected {
        return Err(format!(
            "frame {frame} of the list: setpoints {place:?}, the single controller's {expected:?}\n"
        ));
    }
    for node in premise.recovered() {
        both.totals.recovered += 1;
        let memory = memory_in(system, node);
        let words = 1 + premise.plan.cells;
        if memory[..words] != single[..words] {
            return Err(format!(
                "frame {frame} of the list: node {node} {memory:?}, the single controller {single:?}\n"
            ));
        }
    }
    Ok(())
}

/// A frame call of the list that has one thing wrong: the plan, the mask, a good count, or a
/// length.
fn refused_frame(
    both: &mut Both,
    draw: &Draw,
    words: &Words,
    system: &[u64],
    sensors: &[u64],
    mask: u64,
    faults: &[u8],
) -> Compared<()> {
    let (r, plan) = (draw.r, draw.plan);
    let (mut words, mut mask) = (words.clone(), mask);
    let (mut given, mut sensors) = (system.to_vec(), sensors.to_vec());
    let (mut faults, mut place) = (faults.to_vec(), draw.setpoints());
    let good = GOOD_AT + r.below(plan.nodes);
    match r.below(8) {
        0 | 1 => {
            while words.plan.is_some() {
                words = damaged(r, plan, &words.words);
            }
        }
        2 => mask |= 1 << r.between(plan.nodes, 63),
        3 => given[good] = plan.period as u64 + 1,
        4 => given[good] |= 1 << r.between(16, 63),
        5 => sensors.resize(wrong_length(r, plan.sensors), 0),
        6 => place.resize(wrong_length(r, plan.actuators), 0),
        _ => faults.resize(wrong_length(r, faults.len()), 0),
    }
    let (before, agreement) = (given.clone(), &mut draw.number());
    let answer = both.frame(&words, &mut given, &sensors, mask, &faults, &mut place, agreement)?;
    // Half of an odd length may be the right one.
    if answer != 0 && before != given {
        return Err(String::from("a refused frame changed the record\n"));
    }
    Ok(())
}

// ---- whole listings

/// A plan text and a run text, damaged or not, listed call by call: the lines and the refusal's are
/// the listing of the run program.
fn whole_listing(both: &mut Both, values: &Values, rows: &[Row]) -> Compared<()> {
    let r = both.r;
    for _ in 0..8 {
        let (mut words, mut run) = (any_words(r, PLAN_WORDS), any_words(r, RUN_WORDS));
        both.listing_start(&text(r, values, rows), &mut words, &mut run)?;
    }
    let plan = if r.one_in(3) { text(r, values, rows) } else { plan_text(rows) };
    let (accepted, _) = accepted(rows);
    let masks = r.pick(&[Masks::Premise, Masks::Any, Masks::Stretches, Masks::Halves]);
    let mut lines = run(r, &accepted, values, masks, r.between(0, 25));
    if r.one_in(2) && !lines.is_empty() {
        damage::run(r, &mut lines, accepted.nodes, accepted.sensors, r.below(18));
    }
    let mut out = Vec::new();
    let last = listed(both, values, &plan, &lines, &mut out)?;
    let (mut place, mut count) = (vec![r.next() as u8; 13 + r.below(9)], r.below(9));
    both.listing_refusal(last, &mut place, &mut count)?;
    out.extend_from_slice(&place[..count]);
    both.totals.listings[match last % 256 {
        0 => 0,
        10 => 1,
        _ => 2,
    }] += 1;
    let whole = listing(&plan, &lines).bytes;
    match out == whole {
        true => Ok(()),
        false => Err(format!(
            "the calls list\n{}the run program's listing is\n{}",
            String::from_utf8_lossy(&out),
            String::from_utf8_lossy(&whole)
        )),
    }
}

/// Lists a run to its end or to a refusal; gives the last answer.
fn listed(
    both: &mut Both,
    values: &Values,
    text: &[u8],
    lines: &[u8],
    out: &mut Vec<u8>,
) -> Compared<u64> {
    let r = both.r;
    let (mut words, mut run) = (any_words(r, PLAN_WORDS), any_words(r, RUN_WORDS));
    let answer = both.listing_start(text, &mut words, &mut run)?;
    if answer != 0 {
        return Ok(answer);
    }
    let words = Words::new(words);
    let Some(plan) = &words.plan else {
        return Err(String::from("the words of an accepted text are no plan\n"));
    };
    let draw = Draw { r, values, plan, wrong: 0 };
    let mut rest = lines;
    loop {
        while r.one_in(5) {
            refused_line(both, &draw, &words, &run, rest)?;
        }
        if r.one_in(3) {
            stray(r, plan, &mut run[..SYSTEM_WORDS]);
        }
        let length = listing_line_length(plan) + r.pick(&[0, 0, 1, r.below(90)]);
        let (mut line, mut count) = (vec![r.next() as u8; length], draw.number());
        let answer = both.next(&words, &mut run, rest, &mut line, &mut count)?;
        if answer != 0 || rest.is_empty() {
            return Ok(answer);
        }
        out.extend_from_slice(&line[..count]);
        rest = &rest[run_line_length(plan)..];
    }
}

/// A call for the next line that has one thing wrong: the plan, a good count, the place, the frame
/// number, or the line.
fn refused_line(
    both: &mut Both,
    draw: &Draw,
    words: &Words,
    run: &[u64],
    rest: &[u8],
) -> Compared<()> {
    let (r, plan) = (draw.r, draw.plan);
    let (mut words, mut given, mut rest) = (words.clone(), run.to_vec(), rest.to_vec());
    let mut line = vec![r.next() as u8; listing_line_length(plan)];
    match r.below(5) {
        0 => {
            while words.plan.is_some() {
                words = damaged(r, plan, &words.words);
            }
        }
        1 => given[GOOD_AT + r.below(plan.nodes)] |= 1 << r.between(10, 63),
        2 => line.truncate(r.pick(&[line.len() - 1, r.below(line.len())])),
        3 => given[RUN_WORDS - 1] = r.pick(&[100_000, 100_000 + r.next() % (1 << 62)]),
        _ if rest.is_empty() => rest.push(r.pick(b" \n0")),
        _ => damage::run(r, &mut rest, plan.nodes, plan.sensors, r.below(18)),
    }
    let before = given.clone();
    let answer = both.next(&words, &mut given, &rest, &mut line, &mut draw.number())?;
    match answer != 0 && before != given {
        true => Err(String::from("a refused line changed the run\n")),
        false => Ok(()),
    }
}

// ---- boards: the same frames by the calls on one node

fn boards(both: &mut Both, values: &Values, rows: &[Row]) -> Compared<()> {
    let r = both.r;
    let (plan, words) = accepted(rows);
    let draw = Draw { r, values, plan: &plan, wrong: 0 };
    let mut system = any_words(r, SYSTEM_WORDS);
    both.system_power_on(&words, &mut system)?;
    let mut nodes = vec![draw.memory(); plan.nodes];
    for memory in &mut nodes {
        both.node_power_on(&words, memory)?;
    }
    // What the plane of the boards handed on last: at power-on the initial patterns.
    let mut handed: Vec<_> = plan.outputs.iter().map(|&cell| plan.initial[cell]).collect();
    let masks = r.pick(&[Masks::Premise, Masks::Stretches, Masks::Any, Masks::Halves]);
    let list = frames(r, &plan, values, masks, usual_length(r, &plan));
    for (mask, sensors) in list.into_iter().take(8) {
        let faults = draw.faults(&system, &sensors);
        let (mut place, mut agreement) = (draw.setpoints(), draw.number());
        both.frame(&words, &mut system, &sensors, mask, &faults, &mut place, &mut agreement)?;
        let frame = Fault { plan: &plan, words: &words, mask, faults: &faults };
        let agreements = frame.by_nodes(both, &mut nodes, &sensors, &mut handed)?;
        let memories: Vec<_> = (0..plan.nodes).map(|node| memory_in(&system, node)).collect();
        let least = agreements.iter().min().copied().unwrap_or(0);
        if handed != place || memories != nodes || least != agreement {
            return Err(format!(
                "the calls on nodes and the frame differ: {handed:?} and {place:?}, \
                 {nodes:?} and {memories:?}, {agreements:?} and {agreement}\n"
            ));
        }
        both.totals.boards += 1;
        both.totals.differing += u64::from(agreements.iter().max() > agreements.iter().min());
    }
    Ok(())
}

struct Fault<'a> {
    plan: &'a Plan,
    words: &'a Words,
    mask: u64,
    faults: &'a [u8],
}

impl Fault<'_> {
    fn good(&self, node: usize) -> bool {
        self.mask >> node & 1 == 0
    }

    /// The fault bytes of a node.
    fn fault(&self, node: usize) -> &[u8] {
        let length = self.faults.len() / self.plan.nodes;
        &self.faults[node * length..(node + 1) * length]
    }

    /// Compute, message, exchange, vote and setpoints of all nodes, then the plane, with what it
    /// handed on last; gives the good nodes' agreements.
    fn by_nodes(
        &self,
        both: &mut Both,
        nodes: &mut [Record],
        sensors: &[u64],
        handed: &mut [u64],
    ) -> Compared<Vec<usize>> {
        let length = message_length(self.plan);
        let mut messages = vec![vec![0; length]; nodes.len()];
        for (node, memory) in nodes.iter_mut().enumerate().filter(|(node, _)| self.good(*node)) {
            both.node_compute(self.words, memory, sensors)?;
            both.node_message(self.words, memory, &mut messages[node])?;
        }
        let mut setpoints = vec![vec![0; self.plan.actuators]; nodes.len()];
        let mut agreements = Vec::new();
        for (node, memory) in nodes.iter_mut().enumerate() {
            if !self.good(node) {
                self.load(node, memory, &mut setpoints[node]);
                continue;
            }
            let sent = |sender: usize| match self.good(sender) {
                true => &messages[sender][..],
                false => &self.fault(sender)[(1 + node) * length..(2 + node) * length],
            };
            let mailbox = (0..self.plan.nodes).map(sent).collect::<Vec<_>>().concat();
            let mut agreement = 0;
            both.node_vote(self.words, memory, &mailbox, &mut agreement)?;
            agreements.push(agreement);
            both.node_setpoints(self.words, memory, &mut setpoints[node])?;
        }
        for (actuator, handed) in handed.iter_mut().enumerate() {
            let values: Vec<_> = setpoints.iter().map(|own| own[actuator]).collect();
            *handed = plane(&values, *handed);
        }
        Ok(agreements)
    }

    /// The memory and the setpoints of a bad node.
    fn load(&self, node: usize, memory: &mut [u64], setpoints: &mut [u64]) {
        let bytes = self.fault(node);
        let pattern = |at: usize| u64::from_be_bytes(bytes[at..at + 8].try_into().unwrap());
        memory[0] = u64::from(u16::from_be_bytes([bytes[0], bytes[1]]));
        for (cell, value) in memory[1..1 + self.plan.cells].iter_mut().enumerate() {
            *value = pattern(2 + 8 * cell);
        }
        let own = bytes.len() - 8 * setpoints.len();
        for (actuator, value) in setpoints.iter_mut().enumerate() {
            *value = pattern(own + 8 * actuator);
        }
    }
}
