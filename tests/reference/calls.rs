//! The calls that the library exports: what each answers and writes, on numbers, words and slices.
//!
//! What the calls do and when they are refused is document 01's, the agreement request 2026-02's,
//! the histories 2026-05's, what the plane remembers 2026-06's and the card 2026-07's; beside a
//! refusal a number that a call gives is 0. Plan, memory, system, run and card as words are the
//! library's own layout, which document 01 has not and include/ragbasalt.h tells: a plan is 446
//! words, a memory a counter and 32 patterns, a system 7 memories, 7 good counts and the 8 patterns
//! last handed on, a run a system, a memory, R and a frame number, a card a memory, phase, flags and
//! mask, with 1,813 bytes of bins beside it. Any words and bytes may stand in them.

use super::card::{Bin, Card};
use super::frame::{fault_length, message_length, Memory, System};
use super::generate::plan_text;
use super::histories::histories;
use super::listing::{push_number, run_line_length, Run, MOST_LINES};
use super::plan::{parse_rows, read, Action, Plan, Row, Task, LINE, MOST_TASKS};

pub const NODES: usize = 7;
pub const FRAMES: usize = 16;
pub const CELLS: usize = 32;
pub const ACTUATORS: usize = 8;
/// Nodes, frames, cells, sensors, actuators and tasks; initial patterns; tasks of six words; a word
/// of votes for each frame; the actuators' cells.
pub const COUNTS: usize = 6;
pub const TASKS_AT: usize = COUNTS + CELLS;
pub const VOTES_AT: usize = TASKS_AT + 6 * MOST_TASKS;
pub const OUTPUTS_AT: usize = VOTES_AT + FRAMES;
pub const PLAN_WORDS: usize = OUTPUTS_AT + ACTUATORS;
/// A counter, then patterns.
pub const MEMORY_WORDS: usize = 1 + CELLS;
/// Memories, then good counts, then what was handed on last.
pub const GOOD_AT: usize = NODES * MEMORY_WORDS;
pub const HANDED_AT: usize = GOOD_AT + NODES;
pub const SYSTEM_WORDS: usize = HANDED_AT + ACTUATORS;
/// A system, the single controller's memory, R, the number of the next frame.
pub const SINGLE_AT: usize = SYSTEM_WORDS;
pub const PERIOD_AT: usize = SINGLE_AT + MEMORY_WORDS;
pub const FRAME_AT: usize = PERIOD_AT + 1;
pub const RUN_WORDS: usize = FRAME_AT + 1;
/// A memory, the phase, the flags, the mask; bins of a mark and a message.
pub const PHASE_AT: usize = MEMORY_WORDS;
pub const FLAGS_AT: usize = PHASE_AT + 1;
pub const MASK_AT: usize = FLAGS_AT + 1;
pub const CARD_WORDS: usize = MASK_AT + 1;
pub const BINS_BYTES: usize = NODES * (3 + 8 * CELLS);

/// The largest number of a refusal, and the bytes of its line.
const LAST_REFUSAL: u64 = 12;
const REFUSAL_LINE: usize = 13;

/// "An unused task is a Take of zeros."
const UNUSED_TASK: Row = [10, 0, 0, 0, 0, 0];

/// "A refusal gives its number and a line from 1; 0 where no line is meant." As one number it is
/// number + 256 x line; 0 is done.
fn answer(number: u64, line: usize) -> u64 {
    number + 256 * line as u64
}

pub fn version() -> u64 {
    4
}

// ---- a plan as rows and as words

fn task_row(frame: usize, task: &Task) -> Row {
    let row = |kind: u64, a: usize, fifth: u64, sixth: u64| {
        [kind, frame as u64, task.target as u64, a as u64, fifth, sixth]
    };
    match task.action {
        Action::Take { sensor } => row(10, sensor, 0, 0),
        Action::Sum { a, b } => row(11, a, b as u64, 0),
        Action::Diff { a, b } => row(12, a, b as u64, 0),
        Action::Scale { a, factor } => row(13, a, factor, 0),
        Action::Limit { a, low, high } => row(14, a, low, high),
        Action::Wind { a, rate, cap } => row(15, a, rate, cap),
        Action::Cam { a } => row(16, a, 0, 0),
    }
}

/// The counts of the header: nodes, frames, cells, sensors, actuators.
fn header(plan: &Plan) -> [u64; 5] {
    [plan.nodes, plan.frames, plan.cells, plan.sensors, plan.actuators].map(|count| count as u64)
}

fn task_rows(plan: &Plan) -> Vec<Row> {
    let frames = plan.tasks.iter().enumerate();
    frames.flat_map(|(frame, tasks)| tasks.iter().map(move |task| task_row(frame, task))).collect()
}

/// The plan's lines: "a plan has one record and one text".
fn rows_of(plan: &Plan) -> Vec<Row> {
    let [n, f, c, s, a] = header(plan);
    let mut rows = vec![[0, n, f, c, s, a]];
    rows.extend((0..).zip(&plan.initial).map(|(cell, &pattern)| [1, cell, 0, 0, pattern, 0]));
    rows.extend(task_rows(plan));
    for (frame, cells) in (0..).zip(&plan.votes) {
        rows.extend(cells.iter().map(|&cell| [20, frame, cell as u64, 0, 0, 0]));
    }
    rows.extend((0..).zip(&plan.outputs).map(|(index, &cell)| [30, index, cell as u64, 0, 0, 0]));
    rows
}

pub fn words_of(plan: &Plan) -> Vec<u64> {
    let mut tasks = task_rows(plan);
    let mut words = header(plan).to_vec();
    words.push(tasks.len() as u64);
    words.extend(&plan.initial);
    words.resize(TASKS_AT, 0);
    tasks.resize(MOST_TASKS, UNUSED_TASK);
    words.extend(tasks.iter().flatten());
    words.extend(plan.votes.iter().map(|cells| cells.iter().map(|cell| 1 << cell).sum::<u64>()));
    words.resize(OUTPUTS_AT, 0);
    words.extend(plan.outputs.iter().map(|&cell| cell as u64));
    words.resize(PLAN_WORDS, 0);
    words
}

/// The first `count` entries, if the others are unused: "A plan record's entries past its counts
/// are all zero."
fn used<T: PartialEq>(entries: &[T], count: u64, unused: T) -> Option<&[T]> {
    let (used, past) = entries.split_at_checked(usize::try_from(count).ok()?)?;
    past.iter().all(|entry| *entry == unused).then_some(used)
}

/// The plan that the words are; None is "7: a plan record that no accepted text has".
pub fn plan_of(words: &[u64]) -> Option<Plan> {
    let [n, f, c, s, a, tasks] = *words.first_chunk()?;
    let all_tasks: Vec<Row> =
        words[TASKS_AT..VOTES_AT].chunks_exact(6).map(|task| task.try_into().unwrap()).collect();
    let initial = used(&words[COUNTS..TASKS_AT], c, 0)?;
    let tasks = used(&all_tasks, tasks, UNUSED_TASK)?;
    let outputs = used(&words[OUTPUTS_AT..], a, 0)?;
    if !tasks.iter().all(|row| (10..=16).contains(&row[0])) {
        return None;
    }
    let mut rows = vec![[0, n, f, c, s, a]];
    rows.extend((0..).zip(initial).map(|(cell, &pattern)| [1, cell, 0, 0, pattern, 0]));
    rows.extend_from_slice(tasks);
    for (frame, word) in (0..).zip(&words[VOTES_AT..OUTPUTS_AT]) {
        let cells = (0..64).filter(|cell| word >> cell & 1 == 1);
        rows.extend(cells.map(|cell| [20, frame, cell, 0, 0, 0]));
    }
    rows.extend((0..).zip(outputs).map(|(index, &cell)| [30, index, cell, 0, 0, 0]));
    parse_rows(rows.into_iter().map(Some)).ok()?.with_period().ok()
}

// ---- calls on plans. From here on a plan is None where 7 refuses its words.

pub fn plan_read(text: &[u8], words: &mut [u64]) -> u64 {
    match read(text) {
        Err(refusal) => answer(refusal.number, refusal.line),
        Ok(plan) => {
            words.copy_from_slice(&words_of(&plan));
            0
        }
    }
}

/// "8: .. a text buffer too short." "A written text fills the first bytes of its buffer; the rest
/// is unchanged."
pub fn plan_write(plan: Option<&Plan>, buffer: &mut [u8], count: &mut usize) -> u64 {
    *count = 0;
    let Some(plan) = plan else { return answer(7, 0) };
    let text = plan_text(&rows_of(plan));
    if buffer.len() < text.len() {
        return answer(8, 0);
    }
    buffer[..text.len()].copy_from_slice(&text);
    *count = text.len();
    0
}

pub fn plan_check(plan: Option<&Plan>) -> u64 {
    plan.map_or(answer(7, 0), |_| 0)
}

pub fn plan_period(plan: Option<&Plan>, period: &mut usize) -> u64 {
    *period = plan.map_or(0, |plan| plan.period);
    plan_check(plan)
}

/// The bytes that the histories take; 0 where they are refused.
pub fn histories_size(plan: Option<&Plan>, length: usize) -> usize {
    plan.and_then(|plan| histories(plan, length).ok()).map_or(0, <[u8]>::len)
}

/// "They fill the front of a lent buffer, one byte a mask, the rest unchanged, and their count is
/// given; a short buffer is refusal 8." 11 comes "after 7 and before 8".
pub fn plan_histories(
    plan: Option<&Plan>,
    length: usize,
    buffer: &mut [u8],
    count: &mut usize,
) -> u64 {
    *count = 0;
    let Some(plan) = plan else { return answer(7, 0) };
    let Ok(list) = histories(plan, length) else { return answer(11, 0) };
    if buffer.len() < list.len() {
        return answer(8, 0);
    }
    buffer[..list.len()].copy_from_slice(list);
    *count = list.len() / length;
    0
}

pub fn message_size(plan: Option<&Plan>) -> usize {
    plan.map_or(0, message_length)
}

/// "Each node has n bins .. its mailbox is these bins one after another."
pub fn mailbox_size(plan: Option<&Plan>) -> usize {
    plan.map_or(0, |plan| plan.nodes * message_length(plan))
}

pub fn faults_size(plan: Option<&Plan>) -> usize {
    plan.map_or(0, fault_length)
}

pub fn text_size(plan: Option<&Plan>) -> usize {
    plan.map_or(0, |plan| LINE * rows_of(plan).len())
}

// ---- calls on one node, whose memory is 33 words

/// The memory that words are: a counter's word counts by its low 16 bits. "What a memory .. holds
/// past .. C cells .. is neither read nor changed."
pub fn memory_of(plan: &Plan, words: &[u64]) -> Memory {
    Memory { counter: words[0] as u16, cells: words[1..1 + plan.cells].to_vec() }
}

fn put_memory(memory: &Memory, words: &mut [u64]) {
    words[0] = u64::from(memory.counter);
    words[1..1 + memory.cells.len()].copy_from_slice(&memory.cells);
}

/// "At power-on the counter is 0 and cells are initial, zero past C."
fn put_power_on(plan: &Plan, words: &mut [u64]) {
    words.fill(0);
    put_memory(&Memory::power_on(plan), words);
}

pub fn node_power_on(plan: Option<&Plan>, memory: &mut [u64]) -> u64 {
    let Some(plan) = plan else { return answer(7, 0) };
    put_power_on(plan, memory);
    0
}

pub fn node_compute(plan: Option<&Plan>, memory: &mut [u64], sensors: &[u64]) -> u64 {
    let Some(plan) = plan else { return answer(7, 0) };
    if sensors.len() != plan.sensors {
        return answer(8, 0);
    }
    let mut own = memory_of(plan, memory);
    own.compute(plan, sensors);
    put_memory(&own, memory);
    0
}

pub fn node_message(plan: Option<&Plan>, memory: &[u64], message: &mut [u8]) -> u64 {
    let Some(plan) = plan else { return answer(7, 0) };
    if message.len() != message_length(plan) {
        return answer(8, 0);
    }
    memory_of(plan, memory).message(plan, message);
    0
}

/// "A node's vote gives the least such count over its counter and voted cells."
pub fn node_vote(
    plan: Option<&Plan>,
    memory: &mut [u64],
    mailbox: &[u8],
    agreement: &mut usize,
) -> u64 {
    *agreement = 0;
    let Some(plan) = plan else { return answer(7, 0) };
    if mailbox.len() != plan.nodes * message_length(plan) {
        return answer(8, 0);
    }
    let mut own = memory_of(plan, memory);
    *agreement = own.vote(plan, mailbox);
    put_memory(&own, memory);
    0
}

fn put_setpoints(plan: &Plan, memory: &Memory, place: &mut [u64]) {
    for (actuator, setpoint) in place.iter_mut().enumerate() {
        *setpoint = memory.setpoint(plan, actuator);
    }
}

pub fn node_setpoints(plan: Option<&Plan>, memory: &[u64], place: &mut [u64]) -> u64 {
    let Some(plan) = plan else { return answer(7, 0) };
    if place.len() != plan.actuators {
        return answer(8, 0);
    }
    put_setpoints(plan, &memory_of(plan, memory), place);
    0
}

/// "It computes as above, and its setpoint i is then the pattern of the cell of actuator i. .. It
/// never votes."
pub fn single_frame(
    plan: Option<&Plan>,
    memory: &mut [u64],
    sensors: &[u64],
    place: &mut [u64],
) -> u64 {
    let Some(plan) = plan else { return answer(7, 0) };
    if sensors.len() != plan.sensors || place.len() != plan.actuators {
        return answer(8, 0);
    }
    let mut own = memory_of(plan, memory);
    own.compute(plan, sensors);
    put_setpoints(plan, &own, place);
    put_memory(&own, memory);
    0
}

// ---- calls on a card, which is 36 words, and its bins, which are 1,813 bytes

/// The bytes of a bin: its mark and its message.
pub fn bin_length(plan: &Plan) -> usize {
    1 + message_length(plan)
}

/// The card that words are, with its n bins, of which a call on the page has none.
fn card_of(plan: &Plan, words: &[u64], bins: &[u8]) -> Card {
    let bin = |bytes: &[u8]| Bin { mark: bytes[0], message: bytes[1..].to_vec() };
    let bins = bins.chunks_exact(bin_length(plan)).take(plan.nodes).map(bin).collect();
    let memory = memory_of(plan, words);
    Card::handed_in(memory, words[PHASE_AT], words[FLAGS_AT], words[MASK_AT], bins)
}

/// Bytes past the n bins stay, as words past the cells do.
fn put_card(plan: &Plan, card: &Card, words: &mut [u64], bins: &mut [u8]) {
    put_memory(&card.memory, words);
    let page = [card.phase, card.flags, card.mask];
    words[PHASE_AT..CARD_WORDS].copy_from_slice(&page.map(u64::from));
    for (bin, bytes) in card.bins.iter().zip(bins.chunks_exact_mut(bin_length(plan))) {
        bytes[0] = bin.mark;
        bytes[1..].copy_from_slice(&bin.message);
    }
}

pub fn card_power_on(plan: Option<&Plan>, card: &mut [u64], bins: &mut [u8]) -> u64 {
    let Some(plan) = plan else { return answer(7, 0) };
    card.fill(0);
    bins.fill(0);
    put_card(plan, &Card::power_on(plan), card, bins);
    0
}

/// "12, an access outside the page or a write to a byte other than 4 and 5, after 7."
pub fn card_read(plan: Option<&Plan>, card: &[u64], at: u64, value: &mut u8) -> u64 {
    *value = 0;
    let Some(plan) = plan else { return answer(7, 0) };
    let Some(byte) = card_of(plan, card, &[]).read(at) else { return answer(12, 0) };
    *value = byte;
    0
}

pub fn card_write(plan: Option<&Plan>, card: &mut [u64], at: u64, value: u8) -> u64 {
    let Some(plan) = plan else { return answer(7, 0) };
    let mut own = card_of(plan, card, &[]);
    if own.write(at, value).is_none() {
        return answer(12, 0);
    }
    put_card(plan, &own, card, &mut []);
    0
}

/// "A wrong length is 8 in any phase, for any bin number."
pub fn card_deliver(
    plan: Option<&Plan>,
    card: &mut [u64],
    bins: &mut [u8],
    number: u64,
    message: &[u8],
) -> u64 {
    let Some(plan) = plan else { return answer(7, 0) };
    if message.len() != message_length(plan) {
        return answer(8, 0);
    }
    let mut own = card_of(plan, card, bins);
    own.deliver(number, message);
    put_card(plan, &own, card, bins);
    0
}

/// "Every tick checks sensors and setpoint place by 8."
pub fn card_tick(
    plan: Option<&Plan>,
    card: &mut [u64],
    bins: &mut [u8],
    sensors: &[u64],
    place: &mut [u64],
) -> u64 {
    let Some(plan) = plan else { return answer(7, 0) };
    if sensors.len() != plan.sensors || place.len() != plan.actuators {
        return answer(8, 0);
    }
    let mut own = card_of(plan, card, bins);
    own.tick(plan, sensors, place);
    put_card(plan, &own, card, bins);
    0
}

// ---- calls on the whole system, which is 246 words

/// The words of a node's memory.
fn node_words(node: usize) -> std::ops::Range<usize> {
    MEMORY_WORDS * node..MEMORY_WORDS * (node + 1)
}

/// A node's good count: above 65,535 a word counts as 65,535.
fn good_count(system: &[u64], node: usize) -> usize {
    system[GOOD_AT + node].min(65_535) as usize
}

/// "9: mask >= 2^n, or a good count above R."
fn mask_or_count(plan: &Plan, mask: u64, system: &[u64]) -> bool {
    let above = (0..plan.nodes).any(|node| good_count(system, node) > plan.period);
    mask >= 1 << plan.nodes || above
}

/// The record that words are. "What a .. system record holds past n nodes .. or A actuators is
/// neither read nor changed."
pub fn system_of(plan: &Plan, words: &[u64]) -> System {
    let mut system = System::power_on(plan);
    for node in 0..plan.nodes {
        system.memories[node] = memory_of(plan, &words[node_words(node)]);
        system.counts[node] = good_count(words, node);
    }
    system.handed.copy_from_slice(&words[HANDED_AT..HANDED_AT + plan.actuators]);
    system
}

fn put_system(system: &System, words: &mut [u64]) {
    for (node, memory) in system.memories.iter().enumerate() {
        put_memory(memory, &mut words[node_words(node)]);
        words[GOOD_AT + node] = system.counts[node] as u64;
    }
    words[HANDED_AT..HANDED_AT + system.handed.len()].copy_from_slice(&system.handed);
}

/// "n memories and n good counts, each R, with zeros past them"; zeros are past the actuators too.
pub fn system_power_on(plan: Option<&Plan>, system: &mut [u64]) -> u64 {
    let Some(plan) = plan else { return answer(7, 0) };
    system.fill(0);
    put_system(&System::power_on(plan), system);
    0
}

/// Beside the record and the setpoints the agreement: "the least over the good nodes, or 0 if all
/// are bad".
pub fn system_frame(
    plan: Option<&Plan>,
    system: &mut [u64],
    sensors: &[u64],
    mask: u64,
    faults: &[u8],
    place: &mut [u64],
    agreement: &mut usize,
) -> u64 {
    *agreement = 0;
    let Some(plan) = plan else { return answer(7, 0) };
    if mask_or_count(plan, mask, system) {
        return answer(9, 0);
    }
    let lengths = sensors.len() == plan.sensors
        && faults.len() == fault_length(plan)
        && place.len() == plan.actuators;
    if !lengths {
        return answer(8, 0);
    }
    let mut record = system_of(plan, system);
    (_, *agreement) = record.frame(plan, sensors, mask, faults, place);
    put_system(&record, system);
    0
}

/// "A node is working in a frame if it is good in it and its count before was R."
pub fn system_working(plan: Option<&Plan>, system: &[u64], mask: u64, count: &mut usize) -> u64 {
    *count = 0;
    let Some(plan) = plan else { return answer(7, 0) };
    if mask_or_count(plan, mask, system) {
        return answer(9, 0);
    }
    let works = |&node: &usize| mask >> node & 1 == 0 && good_count(system, node) == plan.period;
    *count = (0..plan.nodes).filter(works).count();
    0
}

/// "Nodes whose memory then equals the single controller's."
pub fn system_equal(plan: Option<&Plan>, system: &[u64], memory: &[u64], count: &mut usize) -> u64 {
    *count = 0;
    let Some(plan) = plan else { return answer(7, 0) };
    if mask_or_count(plan, 0, system) {
        return answer(9, 0);
    }
    let single = memory_of(plan, memory);
    let equal = |&node: &usize| memory_of(plan, &system[node_words(node)]) == single;
    *count = (0..plan.nodes).filter(equal).count();
    0
}

// ---- a run, which is 281 words, and its listing line by line

/// What is printed for a frame: its number (8), two counts (4 each), A plane values (20 each), the
/// agreement (4), line feed.
pub fn listing_line_length(plan: &Plan) -> usize {
    21 + 20 * plan.actuators
}

/// The plan of a text, and its run at power-on.
pub fn listing_start(text: &[u8], plan: &mut [u64], run: &mut [u64]) -> u64 {
    match read(text) {
        Err(refusal) => answer(refusal.number, refusal.line),
        Ok(found) => {
            plan.copy_from_slice(&words_of(&found));
            run.fill(0);
            put_system(&System::power_on(&found), run);
            put_power_on(&found, &mut run[SINGLE_AT..PERIOD_AT]);
            run[PERIOD_AT] = found.period as u64;
            0
        }
    }
}

/// "10: a line not of form, mask >= 2^n, fill > 255, or line 100,001": `rest` is what is left of
/// the run file. At its end nothing is run. R is the plan's, whatever the run has.
pub fn listing_next(
    plan: Option<&Plan>,
    run: &mut [u64],
    rest: &[u8],
    place: &mut [u8],
    count: &mut usize,
) -> u64 {
    *count = 0;
    let Some(plan) = plan else { return answer(7, 0) };
    if mask_or_count(plan, 0, run) {
        return answer(9, 0);
    }
    if place.len() < listing_line_length(plan) {
        return answer(8, 0);
    }
    let single = memory_of(plan, &run[SINGLE_AT..PERIOD_AT]);
    let mut state = Run::new(plan, system_of(plan, run), single);
    if !rest.is_empty() {
        let frame = run[FRAME_AT].min(MOST_LINES as u64) as usize;
        let line = rest.get(..run_line_length(plan)).filter(|_| frame < MOST_LINES);
        let mut out = Vec::new();
        if line.and_then(|line| state.frame(line, frame, &mut out)).is_none() {
            return answer(10, frame + 1);
        }
        place[..out.len()].copy_from_slice(&out);
        *count = out.len();
        run[PERIOD_AT] = plan.period as u64;
        run[FRAME_AT] = frame as u64 + 1;
    }
    put_system(&state.system, run);
    put_memory(&state.single, &mut run[SINGLE_AT..PERIOD_AT]);
    0
}

/// "A refusal prints number (4) and line (8) and ends the listing." Of a line's number the last
/// eight digits; a number that is no refusal's prints nothing. A number that never has a line has
/// line 0, and 3 is of the first line, whatever line is given.
pub fn listing_refusal(given: u64, place: &mut [u8], count: &mut usize) -> u64 {
    *count = 0;
    if place.len() < REFUSAL_LINE {
        return answer(8, 0);
    }
    let number = given % 256;
    let line = match number {
        2 | 4 | 5 | 10 => given / 256,
        3 => 1,
        _ => 0,
    };
    if (1..=LAST_REFUSAL).contains(&number) {
        let mut out = Vec::new();
        push_number(&mut out, number, 4);
        push_number(&mut out, line, 20);
        place[..4].copy_from_slice(&out[..4]);
        place[4..12].copy_from_slice(&out[16..]);
        place[12] = b'\n';
        *count = REFUSAL_LINE;
    }
    0
}
