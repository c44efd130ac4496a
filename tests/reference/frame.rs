//! One frame: compute, message, vote, plane, faults, and the single controller.

use super::plan::{Action, Plan, Task};

/// "A NaN result becomes the pattern 7FF8000000000000."
const NAN: u64 = 0x7FF8_0000_0000_0000;
const MOST_NODES: usize = 7;

/// "A node's memory is a counter of 16 bits and C cells, held as patterns."
#[derive(Clone, PartialEq, Eq, Debug)]
pub struct Memory {
    pub counter: u16,
    pub cells: Vec<u64>,
}

fn float(pattern: u64) -> f64 {
    f64::from_bits(pattern)
}

/// The pattern of an arithmetic result, which f64 has rounded once.
fn result(value: f64) -> u64 {
    if value.is_nan() {
        NAN
    } else {
        value.to_bits()
    }
}

/// "Limit gives low if a < low or a is NaN, high if a > high, else a's own pattern."
pub fn limit(a: u64, low: u64, high: u64) -> u64 {
    if float(a) < float(low) || float(a).is_nan() {
        low
    } else if float(a) > float(high) {
        high
    } else {
        a
    }
}

/// "Wind gives the target's old value plus rate x a (two roundings), then limited from -cap to
/// cap as Limit does." -cap is cap with its sign bit set, also where cap is 0.
fn wind(old: u64, a: u64, rate: u64, cap: u64) -> u64 {
    let step = result(float(rate) * float(a));
    let sum = result(float(old) + float(step));
    limit(sum, cap | 1 << 63, cap)
}

/// "Entry i is the whole part of (1536 x i^2 - 2 x i^3 + 1024) / 2048", for i from 0 to 512.
pub fn cam_entry(i: u64) -> u64 {
    (1536 * i.pow(2) - 2 * i.pow(3) + 1024) / 2048
}

/// "It reads cell a as a position from 0 to 512 and takes the entry at the whole part, as a float.
/// Below 0 or NaN gives entry 0; above 512 gives entry 512."
pub fn cam(a: u64) -> u64 {
    let position = float(a);
    let entry = if position < 0.0 || position.is_nan() {
        0
    } else if position > 512.0 {
        512
    } else {
        position.trunc() as u64
    };
    (cam_entry(entry) as f64).to_bits()
}

pub fn task_result(task: &Task, cells: &[u64], sensors: &[u64]) -> u64 {
    match task.action {
        Action::Take { sensor } => sensors[sensor],
        Action::Sum { a, b } => result(float(cells[a]) + float(cells[b])),
        Action::Diff { a, b } => result(float(cells[a]) - float(cells[b])),
        Action::Scale { a, factor } => result(float(factor) * float(cells[a])),
        Action::Limit { a, low, high } => limit(cells[a], low, high),
        Action::Wind { a, rate, cap } => wind(cells[task.target], cells[a], rate, cap),
        Action::Cam { a } => cam(cells[a]),
    }
}

impl Memory {
    /// "At power-on the counter is 0 and cells are initial."
    pub fn power_on(plan: &Plan) -> Memory {
        Memory { counter: 0, cells: plan.initial.clone() }
    }

    /// "With g = counter mod F, run the tasks of frame g in text order, each seeing the writes
    /// before it. The counter becomes (g + 1) mod F."
    pub fn compute(&mut self, plan: &Plan, sensors: &[u64]) {
        let frame = usize::from(self.counter) % plan.frames;
        for task in &plan.tasks[frame] {
            self.cells[task.target] = task_result(task, &self.cells, sensors);
        }
        self.counter = ((frame + 1) % plan.frames) as u16;
    }

    /// "The message is 2 + 8C bytes: the new counter, then the cells 0 to C-1, all big-endian; a
    /// cell not voted in g is sent as zero." g is the frame before the counter.
    pub fn message(&self, plan: &Plan, place: &mut [u8]) {
        place.fill(0);
        place[..2].copy_from_slice(&self.counter.to_be_bytes());
        for &cell in &plan.votes[frame_before(plan, self.counter)] {
            place[2 + 8 * cell..10 + 8 * cell].copy_from_slice(&self.cells[cell].to_be_bytes());
        }
    }

    /// "Counters are voted first; with no such value, or one >= F, the node's own stays. Let g' be
    /// the frame before the resulting counter. Each cell voted in g' takes its voted value, or
    /// stays as it is if there is none." The agreement: "a node's vote gives the least such count
    /// over its counter and voted cells". A voted counter >= F has its holders too.
    pub fn vote(&mut self, plan: &Plan, mailbox: &[u8]) -> usize {
        let mut bins = [&mailbox[..0]; MOST_NODES];
        for (bin, bytes) in bins.iter_mut().zip(mailbox.chunks_exact(message_length(plan))) {
            *bin = bytes;
        }
        let bins = &bins[..plan.nodes];
        let (counter, mut agreement) = majority(bins, 0);
        match counter.map(|&bytes| u16::from_be_bytes(bytes)) {
            Some(counter) if usize::from(counter) < plan.frames => self.counter = counter,
            _ => {}
        }
        for &cell in &plan.votes[frame_before(plan, self.counter)] {
            let (value, holders) = majority(bins, 2 + 8 * cell);
            if let Some(&bytes) = value {
                self.cells[cell] = u64::from_be_bytes(bytes);
            }
            agreement = agreement.min(holders);
        }
        agreement
    }

    /// Takes a memory "laid out as a message with all cells".
    fn load(&mut self, bytes: &[u8]) {
        self.counter = u16::from_be_bytes(bytes_at(bytes, 0));
        for (cell, pattern) in self.cells.iter_mut().enumerate() {
            *pattern = u64::from_be_bytes(bytes_at(bytes, 2 + 8 * cell));
        }
    }

    /// "Setpoint i is the pattern of the cell of actuator i."
    pub fn setpoint(&self, plan: &Plan, actuator: usize) -> u64 {
        self.cells[plan.outputs[actuator]]
    }
}

pub fn message_length(plan: &Plan) -> usize {
    2 + 8 * plan.cells
}

/// "n x ((n + 1) x (2 + 8C) + 8A)."
pub fn fault_length(plan: &Plan) -> usize {
    plan.nodes * node_fault_length(plan)
}

fn node_fault_length(plan: &Plan) -> usize {
    (plan.nodes + 1) * message_length(plan) + 8 * plan.actuators
}

/// "The frame before a counter c is (c + F - 1) mod F."
fn frame_before(plan: &Plan, counter: u16) -> usize {
    (usize::from(counter) + plan.frames - 1) % plan.frames
}

fn bytes_at<const WIDTH: usize>(bytes: &[u8], at: usize) -> [u8; WIDTH] {
    bytes[at..at + WIDTH].try_into().unwrap()
}

/// "The voted value is the pattern of the first bin that more than half of the bins share": of
/// the WIDTH bytes that stand at `at` in each bin, compared as bits. "A vote is to give, beside the
/// value, how many bins hold it (0 where no value has more than half)."
fn majority<'a, const WIDTH: usize>(
    bins: &[&'a [u8]],
    at: usize,
) -> (Option<&'a [u8; WIDTH]>, usize) {
    let value_of = |bin: &&'a [u8]| -> &'a [u8; WIDTH] { bin[at..].first_chunk().unwrap() };
    for value in bins.iter().map(value_of) {
        let holders = bins.iter().map(value_of).filter(|&other| other == value).count();
        if 2 * holders > bins.len() {
            return (Some(value), holders);
        }
    }
    (None, 0)
}

/// How many nodes put out a value, compared as bits.
pub fn holders(values: &[u64], value: u64) -> usize {
    values.iter().filter(|&&other| other == value).count()
}

/// The old rule: "the value that most nodes put out; of tied values, the one whose lowest-numbered
/// holder is lowest", and how many hold it. `values` are the nodes' setpoints for one actuator,
/// node 0 first.
pub fn most_held(values: &[u64]) -> (usize, u64) {
    let mut best = (0, 0);
    for &value in values {
        let holders = holders(values, value);
        if holders > best.0 {
            best = (holders, value);
        }
    }
    best
}

/// "Of tied values the remembered one wins; if it isn't among them, the old rule decides."
pub fn plane(values: &[u64], remembered: u64) -> u64 {
    let (most, value) = most_held(values);
    if holders(values, remembered) == most {
        remembered
    } else {
        value
    }
}

/// "n memories and n good counts", and "the value it last handed on for each actuator", which the
/// plane remembers: "the memory belongs to the system record". With places for the messages and one
/// mailbox.
pub struct System {
    pub memories: Vec<Memory>,
    pub counts: Vec<usize>,
    pub handed: Vec<u64>,
    messages: Vec<u8>,
    mailbox: Vec<u8>,
}

impl System {
    /// "The system record begins at power-on: n memories and n good counts, each R." The value
    /// last handed on "at power-on .. is the actuator's cell's initial pattern".
    pub fn power_on(plan: &Plan) -> System {
        let mailbox = vec![0; plan.nodes * message_length(plan)];
        System {
            memories: vec![Memory::power_on(plan); plan.nodes],
            counts: vec![plan.period; plan.nodes],
            handed: plan.outputs.iter().map(|&cell| plan.initial[cell]).collect(),
            messages: mailbox.clone(),
            mailbox,
        }
    }

    /// One frame of the whole system; writes what the plane hands on to `place` and gives the
    /// number of working nodes and the agreement. Bit i of the mask set: node i is bad in this
    /// frame.
    pub fn frame(
        &mut self,
        plan: &Plan,
        sensors: &[u64],
        mask: u64,
        faults: &[u8],
        place: &mut [u64],
    ) -> (usize, usize) {
        self.compute(plan, sensors, mask);
        let agreement = self.vote(plan, mask, faults);
        self.plane(plan, mask, faults, place);
        (self.count(plan, mask), agreement)
    }

    fn compute(&mut self, plan: &Plan, sensors: &[u64], mask: u64) {
        let messages = self.messages.chunks_exact_mut(message_length(plan));
        for (node, (memory, message)) in self.memories.iter_mut().zip(messages).enumerate() {
            if good(mask, node) {
                memory.compute(plan, sensors);
                memory.message(plan, message);
            }
        }
    }

    /// Each good node votes over its n bins; a bad node's memory is the one in the fault bytes:
    /// "for each node its memory after the frame, its n messages by receiver, its A setpoints".
    /// Gives "the least over the good nodes, or 0 if all are bad".
    fn vote(&mut self, plan: &Plan, mask: u64, faults: &[u8]) -> usize {
        let length = message_length(plan);
        let mut agreements = Vec::new();
        for node in 0..plan.nodes {
            if !good(mask, node) {
                self.memories[node].load(&faults[node * node_fault_length(plan)..]);
                continue;
            }
            for (sender, bin) in self.mailbox.chunks_exact_mut(length).enumerate() {
                let sent = if good(mask, sender) {
                    &self.messages[sender * length..]
                } else {
                    &faults[sender * node_fault_length(plan) + (1 + node) * length..]
                };
                bin.copy_from_slice(&sent[..length]);
            }
            agreements.push(self.memories[node].vote(plan, &self.mailbox));
        }
        agreements.into_iter().min().unwrap_or(0)
    }

    fn plane(&mut self, plan: &Plan, mask: u64, faults: &[u8], place: &mut [u64]) {
        for (actuator, handed_on) in place.iter_mut().enumerate() {
            let values = self.put_out(plan, mask, faults, actuator);
            *handed_on = plane(&values[..plan.nodes], self.handed[actuator]);
            self.handed[actuator] = *handed_on;
        }
    }

    /// What the nodes put out for an actuator in the frame that left this record, node 0 first; 0
    /// past the nodes.
    pub fn put_out(
        &self,
        plan: &Plan,
        mask: u64,
        faults: &[u8],
        actuator: usize,
    ) -> [u64; MOST_NODES] {
        let mut values = [0; MOST_NODES];
        for (node, value) in values[..plan.nodes].iter_mut().enumerate() {
            *value = if good(mask, node) {
                self.memories[node].setpoint(plan, actuator)
            } else {
                let end = (node + 1) * node_fault_length(plan);
                u64::from_be_bytes(bytes_at(faults, end - 8 * (plan.actuators - actuator)))
            };
        }
        values
    }

    /// How many setpoints memory decided in the frame that left this record: the old rule hands on
    /// another value.
    pub fn decided(&self, plan: &Plan, mask: u64, faults: &[u8]) -> usize {
        let decided = |&actuator: &usize| {
            let values = self.put_out(plan, mask, faults, actuator);
            most_held(&values[..plan.nodes]).1 != self.handed[actuator]
        };
        (0..plan.actuators).filter(decided).count()
    }

    /// "A bad node's count becomes 0; a good one's rises by 1 up to R. A node is working in a
    /// frame if it is good in it and its count before was R."
    fn count(&mut self, plan: &Plan, mask: u64) -> usize {
        let mut working = 0;
        for (node, count) in self.counts.iter_mut().enumerate() {
            if !good(mask, node) {
                *count = 0;
            } else if *count == plan.period {
                working += 1;
            } else {
                *count += 1;
            }
        }
        working
    }
}

fn good(mask: u64, node: usize) -> bool {
    mask >> node & 1 == 0
}
