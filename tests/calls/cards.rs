//! Lists of calls on a card, each on the card that the one before left; four ticks of a list are
//! held to the list alone, without a card.

use super::both::{Both, Compared, Record, Words};
use super::calls::{self, bin_length, FLAGS_AT, MEMORY_WORDS, PHASE_AT};
use super::draw::{accepted, damaged, plan_rows, shuffled, stray_card, Draw};
use super::frame::message_length;
use super::plan::Plan;
use super::random::Values;

pub const CARD_CLASSES: [&str; 8] = [
    "card from power-on",
    "card from power-on",
    "card from power-on",
    "card in compute",
    "card in compute",
    "any card",
    "any card",
    "card under damaged words",
];

pub fn card_class_of(seed: u64) -> &'static str {
    CARD_CLASSES[(seed % CARD_CLASSES.len() as u64) as usize]
}

/// What has to come up in the lists.
pub const CASES: [&str; 31] = [
    "frames of 7 nodes and 32 cells",
    "frames with all bins delivered",
    "frames with bins missing",
    "frames with no bin delivered",
    "frames whose vote changes the memory",
    "frames where a first delivery would give another memory",
    "frames where the bytes of an empty bin would",
    "frames where a bin delivered in compute would",
    "frames where a bin delivered in vote would",
    "frames with refused calls, a mask and a clear among them",
    "bins replaced",
    "bins filled whose mark was neither 0 nor 1",
    "bit 1 set",
    "bit 1 not set with one bin empty",
    "bit 1 not set again by a full bin",
    "bit 1 kept into compute",
    "bins emptied whose mark was neither 0 nor 1",
    "ticks with bit 0 set before",
    "interrupt line up",
    "interrupt line down beside a flag",
    "interrupt line down with bit 2 handed in",
    "masks written with other bits",
    "flags cleared",
    "flags kept where byte 5 has a zero",
    "numbers from n up in broadcast",
    "numbers right in their low bits only in broadcast",
    "wrong lengths for a number from n up",
    "addresses right in their low bits only",
    "cards brought to what counts by a delivery that changes nothing",
    "phases above 3 left by a refusal",
    "7 where 8 or 12 would be",
];

/// What was seen.
#[derive(Clone, Default, PartialEq)]
pub struct CardTotals {
    /// Frames held to the list, by nodes.
    frames: [u64; 7],
    /// By byte of the page, with a plan: reads, and writes, which are done for 4 and 5 alone.
    page: [[u64; 16]; 2],
    /// By phase: ticks, ticks with a phase above 3, ticks refused with 8, deliveries below n, and
    /// deliveries refused with 8.
    phases: [[u64; 4]; 5],
    cases: [u64; CASES.len()],
}

impl CardTotals {
    fn counts(&self) -> impl Iterator<Item = &u64> {
        let rows = self.page.iter().flatten().chain(self.phases.iter().flatten());
        self.frames.iter().chain(rows).chain(&self.cases)
    }

    pub fn sum(&mut self, part: &CardTotals) {
        let rows = self.page.iter_mut().flatten().chain(self.phases.iter_mut().flatten());
        let all = self.frames.iter_mut().chain(rows).chain(&mut self.cases);
        all.zip(part.counts()).for_each(|(all, part)| *all += part);
    }

    fn seen(&mut self, case: &str) {
        let case = CASES.iter().position(|name| *name == case).expect("a case of the table");
        self.cases[case] += 1;
    }

    /// False if something never came up.
    pub fn print(&self) -> bool {
        let ([reads, writes], frames) = (self.page, self.frames);
        let [ticks, above, short_ticks, deliveries, short] = self.phases;
        println!("frames of four ticks by nodes {frames:?}");
        println!("by byte of the page: reads {reads:?}, writes {writes:?}");
        println!("by phase: ticks {ticks:?}, of a phase above 3 {above:?}, with 8 {short_ticks:?}");
        println!("by phase: deliveries {deliveries:?}, with 8 {short:?}");
        CASES.iter().zip(self.cases).for_each(|(name, seen)| println!("{seen:>8} {name}"));
        self.counts().all(|&seen| seen > 0)
    }
}

// ---- calls, and what the papers say of them without a card

enum Call {
    Read(u64),
    Write(u64, u8),
    Deliver(u64, Vec<u8>),
    Tick(Vec<u64>, Vec<u64>),
}

use Call::*;

/// The number that a call is refused with; 0 is none.
fn refusal(plan: Option<&Plan>, call: &Call) -> u64 {
    let Some(plan) = plan else { return 7 };
    match call {
        Read(at) if *at > 15 => 12,
        Write(at, _) if *at != 4 && *at != 5 => 12,
        Deliver(_, message) if message.len() != message_length(plan) => 8,
        Tick(sensors, place) if [sensors.len(), place.len()] != [plan.sensors, plan.actuators] => 8,
        _ => 0,
    }
}

/// For each bin a message, if one was delivered.
type Sent = Vec<Option<Vec<u8>>>;

/// "Four ticks not refused from compute with all bins empty, every call with one plan and the card
/// that the one before left, must give that node's frame for the sensors of the first and the bins
/// delivered, for every mask and clear the host wrote": the calls up to the fourth.
struct Frame {
    /// The memory before them.
    memory: Record,
    ticks: usize,
    sensors: Vec<u64>,
    /// The last and the first deliveries after the first tick and before the second; the last ones
    /// before the first tick, and after the second and before the third, which change nothing.
    last: Sent,
    first: Sent,
    before: Sent,
    after: Sent,
    /// Whether a refused call, a mask and a clear came among them.
    among: [bool; 3],
}

impl Frame {
    fn new(plan: &Plan, memory: &[u64]) -> Frame {
        let [last, first, before, after] = [(); 4].map(|_| vec![None; plan.nodes]);
        let (ticks, sensors, memory) = (0, Vec::new(), memory.to_vec());
        Frame { memory, ticks, sensors, last, first, before, after, among: [false; 3] }
    }

    /// Takes one more call; a refused one and what it lent count for nothing.
    fn take(&mut self, call: &Call, refused: bool) {
        match call {
            _ if refused => self.among[0] = true,
            Write(4, _) => self.among[1] = true,
            Write(..) => self.among[2] = true,
            Deliver(number, message) if *number < self.last.len() as u64 => {
                let (number, message) = (*number as usize, Some(message.clone()));
                match self.ticks {
                    0 => self.before[number] = message,
                    1 => {
                        self.first[number] = self.first[number].take().or(message.clone());
                        self.last[number] = message;
                    }
                    2 => self.after[number] = message,
                    _ => {}
                }
            }
            Tick(sensors, _) => {
                if self.ticks == 0 {
                    self.sensors = sensors.clone();
                }
                self.ticks += 1;
            }
            _ => {}
        }
    }

    /// The memory computed with the sensors of the first tick and voted on these bins: "a bin still
    /// empty counts as not sent", which is zero bytes. Without what is past the cells.
    fn voted(&self, plan: &Plan, bins: &Sent) -> Record {
        let mut memory = self.memory.clone();
        let bin = |sent: &Option<Vec<u8>>| sent.clone().unwrap_or(vec![0; message_length(plan)]);
        let mailbox: Vec<_> = bins.iter().flat_map(bin).collect();
        let computed = calls::node_compute(Some(plan), &mut memory, &self.sensors);
        let voted = calls::node_vote(Some(plan), &mut memory, &mailbox, &mut 0);
        assert_eq!((computed, voted), (0, 0));
        memory.truncate(1 + plan.cells);
        memory
    }

    /// Counts what the frame shows; `bytes` are its bins, as the card has them after it.
    fn count(&self, plan: &Plan, bytes: &[u8], memory: &Record, totals: &mut CardTotals) {
        totals.frames[plan.nodes - 1] += 1;
        if plan.nodes * bin_length(plan) == bytes.len() {
            totals.seen("frames of 7 nodes and 32 cells");
        }
        let missing = self.last.iter().filter(|sent| sent.is_none()).count();
        match missing {
            0 => totals.seen("frames with all bins delivered"),
            _ => totals.seen("frames with bins missing"),
        }
        if missing == plan.nodes {
            totals.seen("frames with no bin delivered");
        }
        if self.among == [true; 3] {
            totals.seen("frames with refused calls, a mask and a clear among them");
        }
        let mut computed = self.memory.clone();
        calls::node_compute(Some(plan), &mut computed, &self.sensors);
        if computed[..1 + plan.cells] != memory[..] {
            totals.seen("frames whose vote changes the memory");
        }
        let either = |one: &Sent, other: &Sent| -> Sent {
            one.iter().zip(other).map(|(one, other)| one.clone().or(other.clone())).collect()
        };
        let bins = bytes.chunks_exact(bin_length(plan)).take(plan.nodes);
        let held: Sent = bins.map(|bin| Some(bin[1..].to_vec())).collect();
        for (bins, case) in [
            (self.first.clone(), "frames where a first delivery would give another memory"),
            (held, "frames where the bytes of an empty bin would"),
            (either(&self.last, &self.before), "frames where a bin delivered in compute would"),
            (either(&self.after, &self.last), "frames where a bin delivered in vote would"),
        ] {
            if self.voted(plan, &bins) != *memory {
                totals.seen(case);
            }
        }
    }
}

// ---- lists

struct List<'a> {
    draw: Draw<'a>,
    words: &'a Words,
    /// Words that 7 refuses.
    refused: &'a Words,
    card: Record,
    bins: Vec<u8>,
    /// The frame that the list is in, if it began with the card in compute and all bins empty.
    frame: Option<Frame>,
}

/// Makes the calls of a list.
pub fn card_case(seed: u64, both: &mut Both) -> Compared<()> {
    let r = both.r;
    let values = &Values::new(r);
    let (plan, right) = accepted(&plan_rows(r, values));
    let class = card_class_of(seed);
    let mut refused = damaged(r, &plan, &right.words);
    while refused.plan.is_some() {
        refused = damaged(r, &plan, &refused.words);
    }
    let lists = if class == "card under damaged words" { 4 } else { 1 };
    for _ in 0..lists {
        let words = match class {
            "card under damaged words" => damaged(r, &plan, &right.words),
            _ => right.clone(),
        };
        let shape = words.plan.as_ref().unwrap_or(&plan);
        let draw = Draw { r, values, plan: shape, wrong: r.pick(&[0, 0, 20, 6]) };
        let (card, bins) = match class {
            "card in compute" => draw.in_compute(),
            _ => (draw.card(), draw.bins()),
        };
        let mut list = List { draw, words: &words, refused: &refused, card, bins, frame: None };
        if class == "card from power-on" || lists > 1 && r.one_in(2) {
            list.power_on(both)?;
        }
        list.phases(both, class, r.between(12, 17) / lists)?;
    }
    Ok(())
}

impl List<'_> {
    fn power_on(&mut self, both: &mut Both) -> Compared<()> {
        if self.draw.r.one_in(3) {
            both.card_power_on(self.refused, &mut self.card, &mut self.bins)?;
        }
        both.card_power_on(self.words, &mut self.card, &mut self.bins).map(|_| ())
    }

    /// So many ticks, with what the host does before each of them. Any card is now and then
    /// replaced by another one; words and bytes that count for nothing are changed on other cards
    /// than those from power-on.
    fn phases(&mut self, both: &mut Both, class: &str, count: usize) -> Compared<()> {
        let (r, plan) = (self.draw.r, self.draw.plan);
        for _ in 0..count {
            if class == "any card" && r.one_in(5) {
                (self.card, self.bins, self.frame) = (self.draw.card(), self.draw.bins(), None);
            }
            let mut calls = self.host();
            calls.push(Tick(self.draw.sensors(), self.draw.setpoints()));
            for call in calls {
                if class != "card from power-on" && r.one_in(3) {
                    stray_card(r, plan, &mut self.card, &mut self.bins);
                }
                self.make(both, call)?;
            }
        }
        Ok(())
    }

    /// What the host does before a tick. In broadcast it delivers all bins or some, in any order,
    /// some of them twice; other calls come among these, and in each phase.
    fn host(&self) -> Vec<Call> {
        let (r, plan, draw) = (self.draw.r, self.draw.plan, &self.draw);
        let mailbox = Draw { wrong: 0, ..*draw }.mailbox(&self.card[..MEMORY_WORDS]);
        let mut calls = Vec::new();
        if self.card[PHASE_AT] % 4 == 1 {
            let mut order = shuffled(r, plan.nodes);
            match r.below(6) {
                0 => drop(order.pop()),
                1 => order.truncate(r.below(plan.nodes + 1)),
                _ => {}
            }
            for number in order {
                if r.one_in(3) {
                    calls.push(Deliver(number as u64, draw.other_message(&mailbox)));
                }
                let at = number * message_length(plan);
                let message = &mailbox[at..at + message_length(plan)];
                calls.push(Deliver(number as u64, message.to_vec()));
            }
        }
        for _ in 0..r.pick(&[0, 1, 2, 3, 6]) {
            let call = match r.below(6) {
                0 | 1 => Read(draw.at()),
                2 | 3 => Write(r.pick(&[4, 5, draw.at()]), draw.byte()),
                _ => Deliver(draw.bin(), draw.other_message(&mailbox)),
            };
            calls.insert(r.below(calls.len() + 1), call);
        }
        for call in &mut calls {
            if let Deliver(_, message) = call {
                message.resize(draw.length(message.len()), 0);
            }
        }
        calls
    }

    /// Makes a call, now and then with words that are no plan, and holds it to the frame.
    fn make(&mut self, both: &mut Both, mut call: Call) -> Compared<()> {
        let r = self.draw.r;
        let words = if r.one_in(12) { self.refused } else { self.words };
        self.begin();
        let (card, bins, mut value) = (self.card.clone(), self.bins.clone(), r.next() as u8);
        let mut place = Vec::new();
        let answer = match &mut call {
            Read(at) => both.card_read(words, &self.card, *at, &mut value)?,
            Write(at, byte) => both.card_write(words, &mut self.card, *at, *byte)?,
            Deliver(number, message) => {
                both.card_deliver(words, &mut self.card, &mut self.bins, *number, message)?
            }
            Tick(sensors, lent) => {
                place = lent.clone();
                both.card_tick(words, &mut self.card, &mut self.bins, sensors, &mut place)?
            }
        };
        let refused = refusal(words.plan.as_ref(), &call);
        if answer != refused {
            return Err(format!("the answer is {answer}, and of the list {refused}\n"));
        }
        let made = Made { plan: self.draw.plan, call: &call, answer, card: &card, bins: &bins };
        made.count(self, value, &mut both.totals.cards);
        self.hold(both, &call, answer != 0, &place)
    }

    /// A frame begins with a card in compute and all bins empty.
    fn begin(&mut self) {
        if let (Some(plan), None) = (&self.words.plan, &self.frame) {
            if self.card[PHASE_AT] % 4 == 0 && self.empty(plan) == plan.nodes {
                self.frame = Some(Frame::new(plan, &self.card[..MEMORY_WORDS]));
            }
        }
    }

    /// How many of the plan's bins are empty.
    fn empty(&self, plan: &Plan) -> usize {
        let marks = self.bins.iter().step_by(bin_length(plan)).take(plan.nodes);
        marks.filter(|mark| **mark != 1).count()
    }

    /// Holds a tick to the frame that the list is in, and ends it with the fourth: the memory is
    /// computed and voted, the place has its setpoints, the phase is 0 and all bins are empty. No
    /// other tick touches its place.
    fn hold(&mut self, both: &mut Both, call: &Call, refused: bool, place: &[u64]) -> Compared<()> {
        let (Some(plan), Some(frame)) = (&self.words.plan, &mut self.frame) else { return Ok(()) };
        frame.take(call, refused);
        let Tick(_, lent) = call else { return Ok(()) };
        if refused || frame.ticks < 4 {
            return match place == lent {
                true => Ok(()),
                false => Err(String::from("a tick that does not leave sync wrote to its place\n")),
            };
        }
        let memory = frame.voted(plan, &frame.last);
        let mut setpoints = vec![0; plan.actuators];
        calls::node_setpoints(Some(plan), &memory, &mut setpoints);
        frame.count(plan, &self.bins, &memory, &mut both.totals.cards);
        self.frame = None;
        let (got, phase) = (&self.card[..1 + plan.cells], self.card[PHASE_AT]);
        match got == memory && place == setpoints && phase == 0 && self.empty(plan) == plan.nodes {
            true => Ok(()),
            false => Err(format!(
                "four ticks leave {got:?}, {place:?}, phase {phase}; of the list {memory:?}, \
                 {setpoints:?}, phase 0 and all bins empty\n"
            )),
        }
    }
}

/// A call that was made, and the card and its bins before it.
struct Made<'a> {
    plan: &'a Plan,
    call: &'a Call,
    answer: u64,
    card: &'a [u64],
    bins: &'a [u8],
}

/// Whether a number is below a bound in its low 8, 16 or 32 bits only.
fn low_bits_only(number: u64, bound: u64) -> bool {
    number >= bound && [8, 16, 32].iter().any(|bits| number % (1 << bits) < bound)
}

impl Made<'_> {
    fn count(&self, after: &List, value: u8, totals: &mut CardTotals) {
        let (card, phase) = (self.card, (self.card[PHASE_AT] % 4) as usize);
        let (flags, above) = (card[FLAGS_AT] % 4, card[PHASE_AT] > 3);
        match self.call {
            _ if self.answer == 7 => {
                if refusal(Some(self.plan), self.call) != 0 {
                    totals.seen("7 where 8 or 12 would be");
                }
            }
            Read(at) | Write(at, _) if *at > 15 => {
                if low_bits_only(*at, 16) {
                    totals.seen("addresses right in their low bits only");
                }
            }
            Read(at) => {
                totals.page[0][*at as usize] += 1;
                match (*at, value & 4, value & 3) {
                    (3, 4, _) => totals.seen("interrupt line up"),
                    (3, _, 1..) => totals.seen("interrupt line down beside a flag"),
                    _ => {}
                }
                if *at == 3 && value & 4 == 0 && card[FLAGS_AT] & 4 == 4 {
                    totals.seen("interrupt line down with bit 2 handed in");
                }
            }
            Write(at, byte) => {
                totals.page[1][*at as usize] += 1;
                if *at == 4 && *byte > 3 {
                    totals.seen("masks written with other bits");
                }
                if *at == 5 && flags & u64::from(*byte) != 0 {
                    totals.seen("flags cleared");
                }
                if *at == 5 && flags & u64::from(!*byte) != 0 {
                    totals.seen("flags kept where byte 5 has a zero");
                }
            }
            Deliver(number, _) => self.count_delivery(after, *number, phase, totals),
            Tick(..) if self.answer == 8 => totals.phases[2][phase] += 1,
            Tick(..) => {
                totals.phases[0][phase] += 1;
                totals.phases[1][phase] += u64::from(above);
                if flags & 1 == 1 {
                    totals.seen("ticks with bit 0 set before");
                }
                if phase == 3 && flags & 2 == 2 {
                    totals.seen("bit 1 kept into compute");
                }
                if phase == 3 && self.marks().any(|mark| mark > 1) {
                    totals.seen("bins emptied whose mark was neither 0 nor 1");
                }
            }
        }
        if self.answer != 0 && above {
            totals.seen("phases above 3 left by a refusal");
        }
    }

    fn marks(&self) -> impl Iterator<Item = u8> + '_ {
        self.bins.iter().step_by(bin_length(self.plan)).take(self.plan.nodes).copied()
    }

    fn count_delivery(&self, after: &List, number: u64, phase: usize, totals: &mut CardTotals) {
        let (nodes, bit_1) = (self.plan.nodes as u64, self.card[FLAGS_AT] & 2 == 2);
        let mark = self.marks().nth(number.min(nodes) as usize);
        let empty = after.empty(self.plan);
        match (self.answer, mark) {
            (8, None) => totals.seen("wrong lengths for a number from n up"),
            (8, _) => totals.phases[4][phase] += 1,
            (_, Some(_)) => totals.phases[3][phase] += 1,
            _ if phase == 1 => {
                totals.seen("numbers from n up in broadcast");
                if low_bits_only(number, nodes) {
                    totals.seen("numbers right in their low bits only in broadcast");
                }
            }
            _ => {}
        }
        if self.answer != 0 {
            return;
        }
        match mark.filter(|_| phase == 1) {
            Some(1) => {
                totals.seen("bins replaced");
                if empty == 0 && !bit_1 {
                    totals.seen("bit 1 not set again by a full bin");
                }
            }
            Some(mark) => {
                match empty {
                    0 if !bit_1 => totals.seen("bit 1 set"),
                    1 if !bit_1 => totals.seen("bit 1 not set with one bin empty"),
                    _ => {}
                }
                if mark > 1 {
                    totals.seen("bins filled whose mark was neither 0 nor 1");
                }
            }
            None if after.card != self.card => {
                totals.seen("cards brought to what counts by a delivery that changes nothing");
            }
            None => {}
        }
    }
}
