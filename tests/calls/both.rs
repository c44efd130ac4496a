//! Each exported call made on the library and on the reference, and compared: the answer, every
//! buffer that was lent, and the guards around it.

use super::calls::{self, system_of, HANDED_AT, SYSTEM_WORDS};
use super::cards::CardTotals;
use super::draw::line_faults;
use super::lend::{Element, Lent, Number, Slice, GUARD};
use super::library::*;
use super::plan::Plan;
use super::random::Random;

/// A plan as words, with the plan that the reference finds in them.
#[derive(Clone)]
pub struct Words {
    pub words: Vec<u64>,
    pub plan: Option<Plan>,
}

impl Words {
    pub fn new(words: Vec<u64>) -> Words {
        Words { plan: calls::plan_of(&words), words }
    }
}

/// The words of a memory, a card, a system or a run.
pub type Record = Vec<u64>;

/// The numbers of answers, 0 to 12.
pub const NUMBERS: usize = 13;

/// What was seen.
#[derive(Clone, Default, PartialEq)]
pub struct Totals {
    pub calls: u64,
    /// By call, then by the answer's number.
    pub answers: [[u64; NUMBERS]; CALLS.len()],
    pub inside: u64,
    pub outside: u64,
    pub recovered: u64,
    /// Frames of boards, and those in which the agreements of good nodes differ.
    pub boards: u64,
    pub differing: u64,
    /// Frames of one node that is bad, of two with one bad, and of two that are good and apart.
    pub small: [u64; 3],
    /// Setpoints that memory decided: in frames of a system, and in lines of a run.
    pub decided: [u64; 2],
    /// Lists of histories by nodes and length; of length 4 and three nodes or more, by R.
    pub histories: [[u64; 4]; 5],
    pub periods: [u64; 3],
    /// Runs listed to their end, to a refused line, and ended by a refused plan.
    pub listings: [u64; 3],
    /// Frames of lists past the 40th; lists with R above 60 and with R = 513; nodes that were bad
    /// and work again, with R above 60 and with R = 513.
    pub long: [u64; 5],
    pub cards: CardTotals,
}

/// The report of a difference.
pub type Compared<T> = Result<T, String>;

pub struct Both<'a> {
    pub r: &'a Random,
    pub totals: &'a mut Totals,
    /// Buffers are lent without guards, each in a block of memory of just its length.
    pub bare: bool,
}

// The parameters of a call, by kind: `plan` is a plan's words; `given` and `record` are the words of
// a memory, a card, a system or a run, to be read or to be changed, `record` also those for a new
// plan and the bytes of bins; `slice` and `place` are buffers with a length, to be read or to be
// written; `number` goes by value; `gives` is a number that the call gives.

macro_rules! parameter {
    (plan) => { &Words };
    (given) => { &[u64] };
    (record) => { &mut Record };
    (record $element:ty) => { &mut Vec<$element> };
    (slice $element:ty) => { &[$element] };
    (place $element:ty) => { &mut Vec<$element> };
    (number $type:ty) => { $type };
    (gives) => { &mut usize };
    (gives $type:ty) => { &mut $type };
}

/// What the library is lent, and the parameter itself.
macro_rules! lend {
    ($both:ident plan $x:ident) => {
        ($both.lend(stringify!($x), &$x.words), $x)
    };
    ($both:ident number $x:ident) => {
        (Number(stringify!($x), $x as u64), $x)
    };
    ($both:ident gives $x:ident) => {
        ($both.lend(stringify!($x), &[*$x]), $x)
    };
    ($both:ident $kind:ident $x:ident) => {
        ($both.lend(stringify!($x), &$x[..]), $x)
    };
}

/// The call on the library: what has a length is handed over with it.
macro_rules! library {
    ($function:ident [$($done:expr),*]) => { unsafe { $function($($done),*) } };
    ($function:ident [$($done:expr),*] number $x:ident $($rest:tt)*) => {
        library!($function [$($done,)* $x.1] $($rest)*)
    };
    ($function:ident [$($done:expr),*] slice $x:ident $($rest:tt)*) => {
        library!($function [$($done,)* $x.0.at(), $x.0.len()] $($rest)*)
    };
    ($function:ident [$($done:expr),*] place $x:ident $($rest:tt)*) => {
        library!($function [$($done,)* $x.0.at(), $x.0.len()] $($rest)*)
    };
    ($function:ident [$($done:expr),*] $kind:ident $x:ident $($rest:tt)*) => {
        library!($function [$($done,)* $x.0.at()] $($rest)*)
    };
}

/// What the reference is handed.
macro_rules! reference {
    (plan $x:ident) => {
        $x.1.plan.as_ref()
    };
    (record $x:ident) => {
        &mut $x.0.after
    };
    (place $x:ident) => {
        &mut $x.0.after
    };
    (gives $x:ident) => {
        &mut $x.0.after[0]
    };
    ($kind:ident $x:ident) => {
        $x.1
    };
}

/// What the caller has after the call.
macro_rules! leave {
    (record $x:ident) => {
        *$x.1 = $x.0.after
    };
    (place $x:ident) => {
        *$x.1 = $x.0.after
    };
    (gives $x:ident) => {
        *$x.1 = $x.0.after[0]
    };
    ($kind:ident $x:ident) => {};
}

macro_rules! calls {
    ($($name:ident $function:ident $answers:tt
        ($($kind:ident $x:ident $(: $type:ty)?),*);)*) => {
        /// The calls, each with the answers that it can give; a size counts as 7 where it is 0.
        pub const CALLS: &[(&str, &[usize])] = &[$((stringify!($name), &$answers)),*];

        #[allow(unused_mut, clippy::too_many_arguments)]
        impl Both<'_> {
            $(
                pub fn $name(&mut self, $($x: parameter!($kind $($type)?)),*) -> Compared<u64> {
                    $(let mut $x = lend!(self $kind $x);)*
                    let got = library!($function [] $($kind $x)*) as u64;
                    let expected = calls::$name($(reference!($kind $x)),*) as u64;
                    self.settle(stringify!($name), got, expected, &[$(&$x.0),*])?;
                    $(leave!($kind $x);)*
                    Ok(expected)
                }
            )*
        }
    };
}

#[rustfmt::skip]
calls! {
    version ragbasalt_version_4 [0] ();
    plan_read ragbasalt_plan_read [0, 1, 2, 3, 4, 5, 6] (slice text: u8, record plan);
    plan_write ragbasalt_plan_write [0, 7, 8] (plan plan, place text: u8, gives count);
    plan_check ragbasalt_plan_check [0, 7] (plan plan);
    plan_period ragbasalt_plan_period [0, 7] (plan plan, gives period);
    plan_histories ragbasalt_plan_histories [0, 7, 8, 11]
        (plan plan, number frames: usize, place masks: u8, gives count);
    message_size ragbasalt_message_size [0, 7] (plan plan);
    mailbox_size ragbasalt_mailbox_size [0, 7] (plan plan);
    faults_size ragbasalt_faults_size [0, 7] (plan plan);
    text_size ragbasalt_text_size [0, 7] (plan plan);
    node_power_on ragbasalt_node_power_on [0, 7] (plan plan, record memory);
    node_compute ragbasalt_node_compute [0, 7, 8] (plan plan, record memory, slice sensors: u64);
    node_message ragbasalt_node_message [0, 7, 8] (plan plan, given memory, place message: u8);
    node_vote ragbasalt_node_vote [0, 7, 8]
        (plan plan, record memory, slice mailbox: u8, gives agreement);
    node_setpoints ragbasalt_node_setpoints [0, 7, 8]
        (plan plan, given memory, place setpoints: u64);
    single_frame ragbasalt_single_frame [0, 7, 8]
        (plan plan, record memory, slice sensors: u64, place setpoints: u64);
    card_power_on ragbasalt_card_power_on [0, 7] (plan plan, record card, record bins: u8);
    card_read ragbasalt_card_read [0, 7, 12]
        (plan plan, given card, number at: u64, gives value: u8);
    card_write ragbasalt_card_write [0, 7, 12]
        (plan plan, record card, number at: u64, number value: u8);
    card_deliver ragbasalt_card_deliver [0, 7, 8]
        (plan plan, record card, record bins: u8, number bin: u64, slice message: u8);
    card_tick ragbasalt_card_tick [0, 7, 8]
        (plan plan, record card, record bins: u8, slice sensors: u64, place setpoints: u64);
    system_power_on ragbasalt_system_power_on [0, 7] (plan plan, record system);
    system_frame ragbasalt_system_frame [0, 7, 8, 9]
        (plan plan, record system, slice sensors: u64, number mask: u64, slice faults: u8,
         place setpoints: u64, gives agreement);
    system_working ragbasalt_system_working [0, 7, 9]
        (plan plan, given system, number mask: u64, gives count);
    system_equal ragbasalt_system_equal [0, 7, 9]
        (plan plan, given system, given memory, gives count);
    listing_start ragbasalt_listing_start [0, 1, 2, 3, 4, 5, 6]
        (slice text: u8, record plan, record run);
    listing_next ragbasalt_listing_next [0, 7, 8, 9, 10]
        (plan plan, record run, slice rest: u8, place line: u8, gives count);
    listing_refusal ragbasalt_listing_refusal [0, 8]
        (number answer: u64, place line: u8, gives count);
}

impl Both<'_> {
    fn lend<T: Element>(&self, name: &'static str, values: &[T]) -> Lent<T> {
        match self.bare {
            true => Lent::new(name, values, 0, 0),
            false => Lent::new(name, values, GUARD + self.r.below(8), GUARD),
        }
    }

    /// Counts a call and compares it.
    fn settle(&mut self, name: &str, got: u64, expected: u64, lent: &[&dyn Slice]) -> Compared<()> {
        let call = CALLS.iter().position(|(call, _)| *call == name).expect("a call of the table");
        let is_size = name.ends_with("_size");
        let number = match expected {
            0 if is_size => 7,
            _ if is_size || name == "version" => 0,
            answer => answer as usize % 256,
        };
        self.totals.calls += 1;
        self.totals.answers[call][number] += 1;
        let mut report = Vec::new();
        if got != expected {
            let [e, g] = [expected, got].map(|answer| match is_size {
                true => format!("{answer}"),
                false => format!("{} of line {}", answer % 256, answer / 256),
            });
            report.push(format!("answer: expected {e}, got {g}"));
        }
        report.extend(lent.iter().filter_map(|slice| slice.difference()));
        if report.is_empty() {
            return Ok(());
        }
        report.push(format!("call: ragbasalt_{name}, lent with:"));
        report.extend(lent.iter().map(|slice| slice.lent()));
        Err(report.join("\n") + "\n")
    }

    pub fn sizes(&mut self, plan: &Words) -> Compared<()> {
        self.message_size(plan)?;
        self.mailbox_size(plan)?;
        self.faults_size(plan)?;
        self.text_size(plan)?;
        Ok(())
    }

    /// The histories of a plan, counted by nodes and length.
    pub fn histories(&mut self, words: &Words, frames: usize, mut masks: Vec<u8>) -> Compared<()> {
        let mut count = self.r.below(9);
        let answer = self.plan_histories(words, frames, &mut masks, &mut count)?;
        if let (0, Some(plan)) = (answer, &words.plan) {
            self.totals.histories[plan.nodes - 1][frames - 1] += 1;
            if frames == 4 && plan.nodes > 2 {
                self.totals.periods[plan.period.min(3) - 1] += 1;
            }
        }
        Ok(())
    }

    /// What the plane handed on last, after a frame that was not refused: past the actuators every
    /// word is as before. The setpoints that memory decided are counted.
    fn handed_on(
        &mut self,
        plan: &Plan,
        before: &[u64],
        after: &[u64],
        mask: u64,
        faults: &[u8],
        counted: usize,
    ) -> Compared<()> {
        let past = HANDED_AT + plan.actuators..SYSTEM_WORDS;
        if before[past.clone()] != after[past] {
            return Err(String::from("a frame changed what is remembered past the actuators\n"));
        }
        let decided = system_of(plan, after).decided(plan, mask, faults);
        self.totals.decided[counted] += decided as u64;
        Ok(())
    }

    /// A line of a run.
    pub fn next(
        &mut self,
        words: &Words,
        run: &mut Record,
        rest: &[u8],
        line: &mut Vec<u8>,
        count: &mut usize,
    ) -> Compared<u64> {
        let before = run.clone();
        let answer = self.listing_next(words, run, rest, line, count)?;
        if let (0, Some(plan), false) = (answer, &words.plan, rest.is_empty()) {
            let (mask, faults) = line_faults(plan, rest);
            self.handed_on(plan, &before, run, mask, &faults, 1)?;
        }
        Ok(answer)
    }

    /// A frame of a system: what was handed on is what is remembered. Frames of one or two nodes
    /// are counted.
    #[allow(clippy::too_many_arguments)]
    pub fn frame(
        &mut self,
        words: &Words,
        system: &mut Record,
        sensors: &[u64],
        mask: u64,
        faults: &[u8],
        place: &mut Vec<u64>,
        agreement: &mut usize,
    ) -> Compared<u64> {
        let before = system.clone();
        let answer = self.system_frame(words, system, sensors, mask, faults, place, agreement)?;
        if let (0, Some(plan)) = (answer, &words.plan) {
            self.handed_on(plan, &before, system, mask, faults, 0)?;
            if system[HANDED_AT..HANDED_AT + plan.actuators] != place[..] {
                return Err(String::from("what is remembered is not what was handed on\n"));
            }
            match (plan.nodes, mask, *agreement) {
                (1, 1, _) => self.totals.small[0] += 1,
                (2, 1 | 2, _) => self.totals.small[1] += 1,
                (2, 0, 0) => self.totals.small[2] += 1,
                _ => {}
            }
        }
        Ok(answer)
    }
}
