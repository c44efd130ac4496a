//! Arguments of calls: plans as words and damages to them, memories, cards and bins, systems, runs,
//! run lines, mailboxes, masks and fault bytes, with or without something wrong.

use super::both::{Record, Words};
use super::calls::{self, bin_length, listing_line_length, memory_of, system_of};
use super::calls::{ACTUATORS, GOOD_AT, HANDED_AT, MEMORY_WORDS, NODES};
use super::calls::{BINS_BYTES, PHASE_AT};
use super::calls::{CELLS, COUNTS, FRAMES, OUTPUTS_AT, PLAN_WORDS, TASKS_AT, VOTES_AT};
use super::damage;
use super::frame::{self, fault_length, message_length};
use super::generate::{half, longest, plan_text, recovering, run, slow, Masks};
use super::plan::{number, read, Plan, Row};
use super::random::{strange, Random, Values};

const MINUS: u64 = 1 << 63;
/// The bytes that are enough for every list of histories.
const MOST_HISTORIES: usize = 29_584;
const INFINITY: u64 = 0x7FF << 52;

/// The rows of an accepted plan.
pub fn plan_rows(r: &Random, values: &Values) -> Vec<Row> {
    match r.below(24) {
        0 => slow(r, values),
        1 => longest(r, values),
        _ => recovering(r, values),
    }
}

pub fn accepted(rows: &[Row]) -> (Plan, Words) {
    let plan = read(&plan_text(rows)).expect("an accepted plan");
    let words = calls::words_of(&plan);
    (plan.clone(), Words { words, plan: Some(plan) })
}

/// An index or count near `value`, or right in its low bits only.
fn other_number(r: &Random, value: u64) -> u64 {
    let near = [0, value.wrapping_add(1), value.wrapping_sub(1)];
    let far = [value.wrapping_add(256), value.wrapping_add(1 << 32), MINUS | value, u64::MAX];
    r.pick(&[r.pick(&near), r.pick(&far), r.below(70) as u64])
}

/// A constant against the rules, or another one.
fn other_constant(r: &Random) -> u64 {
    let edges = [INFINITY, MINUS | INFINITY, INFINITY + 1, u64::MAX, MINUS, 0, 1];
    r.pick(&[r.pick(&edges), strange(r)])
}

/// Changes words of an accepted plan. What comes out may be accepted too.
pub fn damaged(r: &Random, plan: &Plan, right: &[u64]) -> Words {
    let mut words = right.to_vec();
    damage(r, plan, &mut words);
    while r.one_in(4) {
        damage(r, plan, &mut words);
    }
    Words::new(words)
}

fn damage(r: &Random, plan: &Plan, words: &mut [u64]) {
    let tasks = words[COUNTS - 1].min(64) as usize;
    // A used task, or any.
    let task = match tasks > 0 && !r.one_in(4) {
        true => r.below(tasks),
        false => r.below(64),
    };
    let at = TASKS_AT + 6 * task;
    match r.between(1, 13) {
        1 => words.fill(r.pick(&[0, 1, u64::MAX])),
        2 => {
            let count = r.below(COUNTS);
            // Just past the limits of this count, or of any.
            let past = [[0, 8], [0, 17], [0, 33], [0, 17], [0, 9], [65, 65]][count];
            let any = [1, 2, 8, 0, 17, 33, 9, 64, 65];
            words[count] = r.pick(&[other_number(r, words[count]), r.pick(&past), r.pick(&any)]);
        }
        3 => words[COUNTS + r.below(CELLS)] = strange(r),
        4 => {
            let kinds = [0, 1, 9, 17, 20, 30, 266, 272, (1 << 32) + 10, MINUS | 10, u64::MAX];
            words[at] = r.pick(&[r.pick(&kinds), r.between(10, 16) as u64]);
        }
        5 => {
            let field = at + r.between(1, 3);
            let sizes = [plan.frames, plan.cells, plan.sensors].map(|size| size as u64);
            words[field] = r.pick(&[other_number(r, words[field]), r.pick(&sizes)]);
        }
        // A cam has no constants.
        6 | 7 if words[at] == 16 => {
            words[at + r.between(4, 5)] = r.pick(&[1, other_number(r, 0), other_constant(r)]);
        }
        6 | 7 => match r.below(4) {
            0 => words.swap(at + 4, at + 5),
            1 => words[at + 5] ^= MINUS,
            _ => words[at + r.between(4, 5)] = other_constant(r),
        },
        8 if tasks < 64 => {
            let unused = TASKS_AT + 6 * r.between(tasks, 63);
            words[unused + r.below(6)] = r.pick(&[1, 11, 16, MINUS, 0]);
        }
        8 | 9 => {
            let cell = r.pick(&[plan.cells, 31, 32, 63, r.below(64)]).min(63);
            let frame = r.pick(&[plan.frames, r.below(FRAMES), 15]).min(15);
            words[VOTES_AT + frame] ^= 1 << cell;
        }
        10 => {
            let frame = VOTES_AT + r.below(plan.frames);
            words[frame] = r.pick(&[0, words[frame] ^ 1 << r.below(plan.cells)]);
        }
        11 => {
            let actuator = OUTPUTS_AT + r.below(8);
            words[actuator] = r.pick(&[other_number(r, words[actuator]), plan.cells as u64]);
        }
        12 => {
            let other = TASKS_AT + 6 * r.below(tasks.max(1));
            (0..6).for_each(|word| words.swap(at + word, other + word));
        }
        _ => {
            let word = r.below(PLAN_WORDS);
            words[word] = r.pick(&[other_number(r, words[word]), words[word] ^ 1 << r.below(64)]);
        }
    }
}

/// A word that is `low` in its low 16 bits only.
fn above_16_bits(r: &Random, low: u64) -> u64 {
    r.pick(&[low + 65_536, low | 1 << 32, low | MINUS, low | u64::MAX << 16, low | r.next() << 16])
}

/// Changes words that count for nothing: those past the plan's nodes, cells and actuators, and the
/// bits of a counter above the low 16.
pub fn stray(r: &Random, plan: &Plan, system: &mut [u64]) {
    let (node, cell, actuator) = (r.below(NODES), r.below(CELLS), r.below(ACTUATORS));
    if node < plan.nodes {
        let counter = &mut system[MEMORY_WORDS * node];
        *counter = above_16_bits(r, *counter % 65_536);
    } else {
        system[GOOD_AT + node] = r.pick(&[0, 65_539, r.next()]);
        system[MEMORY_WORDS * node] = r.next();
    }
    if node >= plan.nodes || cell >= plan.cells {
        system[MEMORY_WORDS * node + 1 + cell] = r.next();
    }
    if actuator >= plan.actuators {
        system[HANDED_AT + actuator] = r.next();
    }
}

/// A word that is `low` in its low two bits, which alone count in a card's phase, flags and mask.
fn above_2_bits(r: &Random, low: u64) -> u64 {
    let far = [low | 1 << 32, low | MINUS, low | u64::MAX << 2, low | r.next() << 2];
    r.pick(&[low + 4, low + 4 * r.below(64) as u64, r.pick(&far)])
}

/// The same for a card: bits above those that count, cells past the plan's, what stands in bins
/// that are empty, and bytes past the bins.
pub fn stray_card(r: &Random, plan: &Plan, card: &mut [u64], bins: &mut [u8]) {
    let word = PHASE_AT + r.below(3);
    card[word] = above_2_bits(r, card[word] % 4);
    card[0] = above_16_bits(r, card[0] % 65_536);
    let cell = r.below(CELLS);
    if cell >= plan.cells {
        card[1 + cell] = r.next();
    }
    let (used, past) = bins.split_at_mut(plan.nodes * bin_length(plan));
    let bin = used.chunks_exact_mut(bin_length(plan)).nth(r.below(plan.nodes));
    if let Some(bin) = bin.filter(|bin| bin[0] != 1) {
        bin.iter_mut().for_each(|byte| *byte = r.next() as u8);
        bin[0] = empty_mark(r);
    }
    if !past.is_empty() {
        past[r.below(past.len())] = r.next() as u8;
    }
}

/// Any mark but 1.
fn empty_mark(r: &Random) -> u8 {
    r.pick(&[0, 0, 2, 255, r.between(2, 255) as u8])
}

/// The mask and the fault bytes of a whole run line.
pub fn line_faults(plan: &Plan, line: &[u8]) -> (u64, Vec<u8>) {
    let column = |bytes: &[u8]| number(bytes).expect("a whole run line");
    (column(&line[..4]), vec![column(&line[4..8]) as u8; fault_length(plan)])
}

pub fn wrong_length(r: &Random, right: usize) -> usize {
    r.pick(&[0, right + 1, right.saturating_sub(1), right + r.between(2, 9), right / 2, 2 * right])
}

/// Draws what a call takes beside its plan, of the lengths that `plan` asks for; one in `wrong`
/// lengths and masks is wrong, none where it is 0.
pub struct Draw<'a> {
    pub r: &'a Random,
    pub values: &'a Values,
    pub plan: &'a Plan,
    pub wrong: usize,
}

impl Draw<'_> {
    fn is_wrong(&self) -> bool {
        self.wrong > 0 && self.r.one_in(self.wrong)
    }

    pub fn length(&self, right: usize) -> usize {
        if self.is_wrong() {
            wrong_length(self.r, right)
        } else {
            right
        }
    }

    fn pattern(&self) -> u64 {
        if self.r.one_in(6) {
            strange(self.r)
        } else {
            self.values.any(self.r)
        }
    }

    fn patterns(&self, count: usize) -> Vec<u64> {
        (0..count).map(|_| self.pattern()).collect()
    }

    fn counter(&self) -> u16 {
        let (r, frames) = (self.r, self.plan.frames as u16);
        let below = r.below(self.plan.frames) as u16;
        r.pick(&[below, below, below, frames, frames + 1, 65_535, r.next() as u16])
    }

    /// The word of a counter, now and then with bits above the 16 that count.
    fn counter_word(&self) -> u64 {
        let counter = u64::from(self.counter());
        match self.r.below(5) {
            0 => above_16_bits(self.r, counter),
            _ => counter,
        }
    }

    /// Words of a memory, those past the plan's cells too.
    pub fn memory(&self) -> Record {
        let mut words = vec![self.counter_word()];
        words.extend(self.patterns(CELLS));
        words
    }

    /// Words of a card in any phase, with any bits in them.
    pub fn card(&self) -> Record {
        let r = self.r;
        let mut words = self.memory();
        words.extend((0..3).map(|_| {
            let low = r.below(4) as u64;
            r.pick(&[low, low, above_2_bits(r, low)])
        }));
        words
    }

    /// Any bytes as bins, of which none, all, all but one or any are filled.
    pub fn bins(&self) -> Vec<u8> {
        let (r, nodes) = (self.r, self.plan.nodes);
        let mut bytes: Vec<_> = (0..BINS_BYTES).map(|_| r.next() as u8).collect();
        let (way, one) = (r.below(4), r.below(nodes));
        let marks = bytes.iter_mut().step_by(bin_length(self.plan)).take(nodes);
        for (bin, mark) in marks.enumerate() {
            let filled = match way {
                0 => false,
                1 => true,
                2 => bin != one,
                _ => r.one_in(2),
            };
            *mark = if filled { 1 } else { empty_mark(r) };
        }
        bytes
    }

    /// A card in compute with all bins empty, and its bins.
    pub fn in_compute(&self) -> (Record, Vec<u8>) {
        let (mut card, mut bins) = (self.card(), self.bins());
        card[PHASE_AT] -= card[PHASE_AT] % 4;
        let marks = bins.iter_mut().step_by(bin_length(self.plan)).take(self.plan.nodes);
        marks.filter(|mark| **mark == 1).for_each(|mark| *mark = empty_mark(self.r));
        (card, bins)
    }

    /// An address: of the page, the bytes that have something in them more often, or outside it,
    /// also one that is right in its low bits only.
    pub fn at(&self) -> u64 {
        let r = self.r;
        let page = r.below(16) as u64;
        match r.below(8) {
            0 => r.pick(&[16, 17, other_number(r, page), other_number(r, r.between(3, 5) as u64)]),
            1..=3 => page,
            _ => r.between(2, 5) as u64,
        }
    }

    /// What is written to the page.
    pub fn byte(&self) -> u8 {
        self.r.pick(&[0, 1, 2, 3, 3, 4, 255, self.r.next() as u8])
    }

    /// The number of a bin: of the plan's, or from n up, also one that is right in its low bits
    /// only.
    pub fn bin(&self) -> u64 {
        let (r, nodes) = (self.r, self.plan.nodes);
        let bin = r.below(nodes) as u64;
        match r.below(4) {
            0 => r.pick(&[nodes as u64, other_number(r, bin), other_number(r, nodes as u64)]),
            _ => bin,
        }
    }

    /// A message in place of one of a mailbox: another bin's, changed or not.
    pub fn other_message(&self, mailbox: &[u8]) -> Vec<u8> {
        let length = message_length(self.plan);
        let at = self.r.below(self.plan.nodes) * length;
        let mut message = mailbox[at..at + length].to_vec();
        self.spoil(&mut message);
        message
    }

    pub fn sensors(&self) -> Vec<u64> {
        self.patterns(self.length(self.plan.sensors))
    }

    /// A place for setpoints, with something in it.
    pub fn setpoints(&self) -> Vec<u64> {
        self.patterns(self.length(self.plan.actuators))
    }

    /// A place for a message, with something in it.
    pub fn message(&self) -> Vec<u8> {
        vec![self.r.next() as u8; self.length(message_length(self.plan))]
    }

    /// A place for bytes that may be longer than these: too short, exact or longer.
    fn place(&self, right: usize) -> Vec<u8> {
        let short = [0, right.saturating_sub(1), self.r.below(right + 1)];
        let wide = [right, right, right + 1, right + self.r.below(200)];
        let length = if self.r.one_in(3) { self.r.pick(&short) } else { self.r.pick(&wide) };
        vec![self.r.next() as u8; length]
    }

    pub fn text(&self, words: &Words) -> Vec<u8> {
        self.place(calls::text_size(words.plan.as_ref()))
    }

    /// A place for a line of the listing.
    pub fn line(&self) -> Vec<u8> {
        self.place(listing_line_length(self.plan))
    }

    /// A length of histories: 1 to 4, or outside, also right in its low bits only.
    pub fn frames(&self) -> usize {
        let r = self.r;
        let low = r.between(1, 4);
        let far = [1 << 8 | low, 1 << 16 | low, 1 << 32 | low, 1 << 63 | low, usize::MAX];
        match r.below(8) {
            0 => r.pick(&[0, 5, 6, r.between(7, 40)]),
            1 => r.pick(&[0, 5, 6, r.pick(&far)]),
            _ => r.between(1, 4),
        }
    }

    /// A place for histories: exact, longer, far too long; or short, by a byte, by a history, by
    /// all but one history, or of no byte. Where they are refused it may be anything.
    pub fn masks(&self, words: &Words, length: usize) -> Vec<u8> {
        let r = self.r;
        let right = match calls::histories_size(words.plan.as_ref(), length) {
            0 => r.pick(&[0, 1, 3, 66, r.below(400), MOST_HISTORIES]),
            right => right,
        };
        let less = right.saturating_sub(1);
        let short =
            [0, less, less, right.saturating_sub(length), length.min(less), r.below(right + 1)];
        let wide = [right, right, right + 1, right + r.below(200), MOST_HISTORIES.max(right) + 99];
        let bytes = if r.one_in(3) { r.pick(&short) } else { r.pick(&wide) };
        vec![r.next() as u8; bytes]
    }

    /// What stands where a call gives a number.
    pub fn number(&self) -> usize {
        self.r.between(0, 9)
    }

    pub fn mask(&self) -> u64 {
        let (r, nodes) = (self.r, self.plan.nodes);
        let all = (1 << nodes) - 1;
        if self.is_wrong() {
            return r.pick(&[1 << nodes, all + 1 + r.below(200) as u64, 1 << 32, MINUS, u64::MAX]);
        }
        match r.below(8) {
            0 | 1 => 0,
            2 => r.next() & all,
            3 => all ^ 1 << r.below(nodes),
            4 => r.next() & r.next() & all,
            5 => 1 << r.below(nodes),
            _ => half(r, nodes),
        }
    }

    /// The word of a good count: mostly R; past the nodes anything. Above R also what is right in
    /// its low 16 bits only, as 65,539 for 3.
    fn good(&self, node: usize) -> u64 {
        let (r, period) = (self.r, self.plan.period as u64);
        let up_to = r.below(self.plan.period + 1) as u64;
        match r.below(4) {
            _ if node >= self.plan.nodes => r.pick(&[0, period, r.next()]),
            _ if self.wrong > 0 && r.one_in(7 * self.wrong) => {
                let near = [period + 1, period + 256, 65_535, 65_536];
                r.pick(&[r.pick(&near), above_16_bits(r, r.pick(&[up_to, period])), u64::MAX])
            }
            0 => up_to,
            1 => r.pick(&[0, period - 1]),
            _ => period,
        }
    }

    /// A system with any memories, many of them this one, or this one but for a bit.
    pub fn system(&self, memory: &[u64]) -> Record {
        let (r, plan) = (self.r, self.plan);
        let mut words = Vec::new();
        for node in 0..NODES {
            let mut own = memory.to_vec();
            let cell = 1 + r.below(plan.cells);
            match r.below(9) {
                0 => own[0] = self.counter_word(),
                1 => own[0] = above_16_bits(r, own[0] % 65_536),
                2 => own[cell] ^= 1 << r.pick(&[63, 63, r.below(64)]),
                3 => own[cell] = self.pattern(),
                4 => own[1 + plan.cells..].iter_mut().for_each(|cell| *cell = !*cell),
                5 => own = self.memory(),
                _ if node >= plan.nodes => own[0] = r.next(),
                _ => {}
            }
            words.extend(own);
        }
        words.extend((0..NODES).map(|node| self.good(node)));
        words.extend((0..ACTUATORS).map(|actuator| self.handed(memory, actuator)));
        words
    }

    /// The word of what was handed on last: any pattern, often what the actuator's cell holds; past
    /// the actuators anything.
    fn handed(&self, memory: &[u64], actuator: usize) -> u64 {
        match (self.r.below(3), self.plan.outputs.get(actuator)) {
            (0, Some(&cell)) => memory[1 + cell],
            (0, None) => self.r.pick(&[0, self.r.next()]),
            _ => self.pattern(),
        }
    }

    /// Lets the plane remember, for most actuators, what some node puts out in the frame of a
    /// system that these make; a frame that is refused changes nothing here.
    pub fn remember(&self, system: &mut [u64], sensors: &[u64], mask: u64, faults: &[u8]) {
        let (mut after, mut place) = (system.to_vec(), vec![0; self.plan.actuators]);
        let given = (&mut after, &mut place);
        let plan = Some(self.plan);
        if calls::system_frame(plan, given.0, sensors, mask, faults, given.1, &mut 0) == 0 {
            self.remember_some(system, &after, mask, faults);
        }
    }

    /// The same in the frame of a run's next line.
    pub fn remember_line(&self, run: &mut [u64], rest: &[u8]) {
        let (mut after, mut line) = (run.to_vec(), vec![0; listing_line_length(self.plan)]);
        let answer = calls::listing_next(Some(self.plan), &mut after, rest, &mut line, &mut 0);
        if answer == 0 && !rest.is_empty() {
            let (mask, faults) = line_faults(self.plan, rest);
            self.remember_some(run, &after, mask, &faults);
        }
    }

    fn remember_some(&self, record: &mut [u64], after: &[u64], mask: u64, faults: &[u8]) {
        let (r, plan, system) = (self.r, self.plan, system_of(self.plan, after));
        for actuator in (0..plan.actuators).filter(|_| !r.one_in(4)) {
            let values = system.put_out(plan, mask, faults, actuator);
            record[HANDED_AT + actuator] = r.pick(&values[..plan.nodes]);
        }
    }

    /// A run with any system and any memory of the single controller; frame numbers also just
    /// below 100,000 and above it. The R that stands in it counts for nothing.
    pub fn run(&self, memory: &[u64]) -> Record {
        let r = self.r;
        let mut words = self.system(memory);
        words.extend(r.pick(&[memory, &self.memory()]));
        words.push(r.pick(&[self.plan.period as u64, 0, r.next()]));
        let near = [99_998, 99_999, 100_000, 100_001, 165_536];
        let far = [1 << 32, (1 << 32) + 5, MINUS, u64::MAX, r.next()];
        let low = r.below(300) as u64;
        words.push(r.pick(&[0, low, low, low, r.pick(&near), r.pick(&far)]));
        words
    }

    /// What is left of a run file: nothing, or some lines, damaged or not.
    pub fn rest(&self) -> Vec<u8> {
        let (r, plan) = (self.r, self.plan);
        let masks =
            r.pick(&[Masks::Quiet, Masks::Any, Masks::Extreme, Masks::Halves, Masks::Halves]);
        let mut text = run(r, plan, self.values, masks, r.below(4));
        match r.below(4) {
            0 if !text.is_empty() => {
                damage::run(r, &mut text, plan.nodes, plan.sensors, r.below(18));
            }
            1 if r.one_in(4) => text.truncate(r.below(text.len() + 1)),
            _ => {}
        }
        text
    }

    /// An answer for a refusal's line: any number and any line.
    pub fn answer(&self) -> u64 {
        let r = self.r;
        let number = r.pick(&[r.below(14), r.below(14), r.below(14), 255, r.below(256)]) as u64;
        let lines = [0, 1, r.between(1, 618) as u64, 100_001, 99_999_999, 100_000_000];
        let line = r.pick(&[r.pick(&lines), r.pick(&lines), r.next() >> 8]);
        number + 256 * line
    }

    /// A place for a refusal's line.
    pub fn refusal(&self) -> Vec<u8> {
        self.place(13)
    }

    /// A mailbox: any bytes; bins mostly equal to the message of a memory; or bins in which each
    /// field is shared by no one, by half of them, by just more than half, or by all.
    pub fn mailbox(&self, memory: &[u64]) -> Vec<u8> {
        let (r, plan) = (self.r, self.plan);
        let bin = message_length(plan);
        let mut mailbox = vec![0; plan.nodes * bin];
        match r.below(8) {
            0 => mailbox.iter_mut().for_each(|byte| *byte = r.next() as u8),
            1 => mailbox.fill(r.pick(&[0, 255, r.next() as u8])),
            2 | 3 => {
                let message = self.message_of(memory);
                for bytes in mailbox.chunks_exact_mut(bin) {
                    bytes.copy_from_slice(&message);
                    self.spoil(bytes);
                }
            }
            _ => {
                for field in 0..1 + plan.cells {
                    self.field(&mut mailbox, field);
                }
            }
        }
        mailbox.resize(self.length(plan.nodes * bin), 0);
        mailbox
    }

    /// What the memory sends, or all of its cells.
    fn message_of(&self, memory: &[u64]) -> Vec<u8> {
        let mut bytes = vec![0; message_length(self.plan)];
        let own = memory_of(self.plan, memory);
        own.message(self.plan, &mut bytes);
        if self.r.one_in(3) {
            put_fields(&mut bytes, own.counter, own.cells.iter().copied());
        }
        bytes
    }

    /// Leaves a message as it is, or changes its counter, a cell, a bit, or all of it.
    fn spoil(&self, message: &mut [u8]) {
        let r = self.r;
        let cell = 2 + 8 * r.below(self.plan.cells);
        match r.below(10) {
            0 => message[..2].copy_from_slice(&self.counter().to_be_bytes()),
            1 => message[cell..cell + 8].copy_from_slice(&self.pattern().to_be_bytes()),
            2 => message[r.below(message.len())] ^= 1 << r.below(8),
            3 => message.fill(0),
            4 => message.iter_mut().for_each(|byte| *byte = r.next() as u8),
            _ => {}
        }
    }

    /// Field 0 of the bins is the counter, field 1 + c cell c: some bins hold one value, the others
    /// another one or each its own.
    fn field(&self, mailbox: &mut [u8], field: usize) {
        let (r, nodes) = (self.r, self.plan.nodes);
        let bin = message_length(self.plan);
        let (start, width) = if field == 0 { (0, 2) } else { (8 * field - 6, 8) };
        let value = || match field {
            0 => u64::from(self.counter()) << 48,
            _ => self.pattern(),
        };
        let [shared, second] = [value(), if r.one_in(4) { value() ^ MINUS } else { value() }];
        let second = if field > 0 && r.one_in(4) { shared ^ MINUS } else { second };
        let mut holders = r.pick(&[0, nodes / 2, nodes / 2, nodes / 2 + 1, nodes / 2 + 1, nodes]);
        let own = r.one_in(3);
        for node in shuffled(r, nodes) {
            let value = match holders {
                0 if own => value(),
                0 => second,
                _ => shared,
            };
            holders = holders.saturating_sub(1);
            let at = node * bin + start;
            mailbox[at..at + width].copy_from_slice(&value.to_be_bytes()[..width]);
        }
    }

    /// Fault bytes: any bytes; one byte; fields of a few patterns; or messages that are nearly
    /// those of a good node, another one for each receiver, and setpoints that are nearly its own.
    /// In half of them the bad nodes put out one setpoint.
    pub fn faults(&self, system: &[u64], sensors: &[u64]) -> Vec<u8> {
        let (r, plan) = (self.r, self.plan);
        let mut faults = vec![0; fault_length(plan)];
        match r.below(8) {
            0 => faults.iter_mut().for_each(|byte| *byte = r.next() as u8),
            1 => faults.fill(r.pick(&[0, 255, r.next() as u8])),
            2 | 3 => self.fault_fields(&mut faults, None),
            _ => {
                let truth = self.truth(system, sensors);
                self.fault_fields(&mut faults, truth.as_ref());
            }
        }
        if r.one_in(2) {
            self.one_setpoint(&mut faults, system);
        }
        faults.resize(self.length(fault_length(plan)), 0);
        faults
    }

    /// For some actuators all nodes that are bad put out one value, often what the plane handed on
    /// last: where they are half of the nodes, they tie with the others.
    fn one_setpoint(&self, faults: &mut [u8], system: &[u64]) {
        let (r, plan) = (self.r, self.plan);
        for actuator in 0..plan.actuators {
            let value = match r.below(3) {
                0 => system[HANDED_AT + actuator],
                1 => self.pattern(),
                _ => continue,
            };
            for bytes in faults.chunks_exact_mut(fault_length(plan) / plan.nodes) {
                let at = bytes.len() - 8 * (plan.actuators - actuator);
                bytes[at..at + 8].copy_from_slice(&value.to_be_bytes());
            }
        }
    }

    /// Some node's memory after it has computed.
    fn truth(&self, system: &[u64], sensors: &[u64]) -> Option<frame::Memory> {
        let (plan, node) = (self.plan, self.r.below(self.plan.nodes));
        let mut memory = memory_of(plan, &system[MEMORY_WORDS * node..]);
        if sensors.len() != plan.sensors {
            return None;
        }
        memory.compute(plan, sensors);
        Some(memory)
    }

    fn fault_fields(&self, faults: &mut [u8], truth: Option<&frame::Memory>) {
        let (r, plan) = (self.r, self.plan);
        let length = message_length(plan);
        let cells = || (0..plan.cells).map(|_| self.pattern());
        for bytes in faults.chunks_exact_mut(fault_length(plan) / plan.nodes) {
            let (messages, setpoints) = bytes.split_at_mut((plan.nodes + 1) * length);
            for message in messages.chunks_exact_mut(length) {
                match truth {
                    Some(memory) => memory.message(plan, message),
                    None => put_fields(message, self.counter(), cells()),
                }
                self.spoil(message);
            }
            if r.one_in(3) {
                put_fields(&mut messages[..length], self.counter(), cells());
            }
            for (actuator, setpoint) in setpoints.chunks_exact_mut(8).enumerate() {
                let true_one = truth.filter(|_| r.one_in(2));
                let value = true_one.map(|memory| memory.setpoint(plan, actuator));
                let value = value.unwrap_or_else(|| self.pattern());
                setpoint.copy_from_slice(&value.to_be_bytes());
            }
        }
    }
}

fn put_fields(message: &mut [u8], counter: u16, cells: impl Iterator<Item = u64>) {
    message[..2].copy_from_slice(&counter.to_be_bytes());
    for (place, pattern) in message[2..].chunks_exact_mut(8).zip(cells) {
        place.copy_from_slice(&pattern.to_be_bytes());
    }
}

pub fn shuffled(r: &Random, count: usize) -> Vec<usize> {
    let mut order: Vec<_> = (0..count).collect();
    (1..count).for_each(|at| order.swap(at, r.below(at + 1)));
    order
}
