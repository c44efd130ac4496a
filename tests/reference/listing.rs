//! The run program: its whole output as bytes, from the bytes of plan.txt and run.txt.

use super::frame::{fault_length, Memory, System};
use super::plan::{self, number, Plan, Refusal};

/// "10: ... or line 100,001."
pub const MOST_LINES: usize = 100_000;

#[derive(Default)]
pub struct Listing {
    pub bytes: Vec<u8>,
    /// The lines that are no refusal.
    pub lines: usize,
    pub accepted: bool,
    pub refusal: Option<Refusal>,
    /// The frames of the setpoints that memory decided.
    pub decided: Vec<usize>,
}

/// Writes a number right-justified in a column.
pub fn push_number(out: &mut Vec<u8>, mut value: u64, width: usize) {
    let mut digits = [b' '; 20];
    let mut start = 20;
    loop {
        start -= 1;
        digits[start] = b'0' + (value % 10) as u8;
        value /= 10;
        if value == 0 {
            break;
        }
    }
    out.extend_from_slice(&digits[start.min(20 - width)..]);
}

/// "A refusal prints number (4) and line (8)."
pub fn push_refusal(out: &mut Vec<u8>, refusal: Refusal) {
    push_number(out, refusal.number, 4);
    push_number(out, refusal.line as u64, 8);
    out.push(b'\n');
}

/// "mask (width 4), fill (4), S patterns (20 each), line feed"
pub fn run_line_length(plan: &Plan) -> usize {
    9 + 20 * plan.sensors
}

/// Mask and fill of a run line, with its sensor patterns in `sensors`; None is refusal 10: "a
/// line not of form, mask >= 2^n, fill > 255".
fn run_line(plan: &Plan, line: &[u8], sensors: &mut [u64]) -> Option<(u64, u8)> {
    let (mask, fill) = (number(&line[..4])?, number(&line[4..8])?);
    for (pattern, column) in sensors.iter_mut().zip(line[8..].chunks_exact(20)) {
        *pattern = number(column)?;
    }
    let of_form = line.ends_with(b"\n") && mask < 1 << plan.nodes;
    Some((mask, u8::try_from(fill).ok()?)).filter(|_| of_form)
}

/// The system, the single controller beside it, and the buffers of a frame call.
pub struct Run<'a> {
    plan: &'a Plan,
    pub system: System,
    pub single: Memory,
    sensors: Vec<u64>,
    faults: Vec<u8>,
    place: Vec<u64>,
    decided: Vec<usize>,
}

impl<'a> Run<'a> {
    fn power_on(plan: &'a Plan) -> Run<'a> {
        Run::new(plan, System::power_on(plan), Memory::power_on(plan))
    }

    /// A run that goes on from any state.
    pub fn new(plan: &'a Plan, system: System, single: Memory) -> Run<'a> {
        Run {
            plan,
            system,
            single,
            sensors: vec![0; plan.sensors],
            faults: vec![0; fault_length(plan)],
            place: vec![0; plan.actuators],
            decided: Vec::new(),
        }
    }

    /// Runs the frame of a line and prints it: "frame number from 0 (width 8), nodes working in
    /// it (4), nodes whose memory then equals the single controller's (4), A plane values (20
    /// each)", and "a last column of width 4", the agreement. None: the line is refused.
    pub fn frame(&mut self, line: &[u8], number: usize, out: &mut Vec<u8>) -> Option<()> {
        let (mask, fill) = run_line(self.plan, line, &mut self.sensors)?;
        // "Only bad nodes' bytes matter."
        if mask != 0 && self.faults[0] != fill {
            self.faults.fill(fill);
        }
        let (working, agreement) =
            self.system.frame(self.plan, &self.sensors, mask, &self.faults, &mut self.place);
        let decided = self.system.decided(self.plan, mask, &self.faults);
        self.decided.extend(std::iter::repeat_n(number, decided));
        self.single.compute(self.plan, &self.sensors);
        let equal = self.system.memories.iter().filter(|&memory| *memory == self.single).count();
        push_number(out, number as u64, 8);
        push_number(out, working as u64, 4);
        push_number(out, equal as u64, 4);
        self.place.iter().for_each(|&value| push_number(out, value, 20));
        push_number(out, agreement as u64, 4);
        out.push(b'\n');
        Some(())
    }
}

/// The listing of a run up to its end or its first refused line.
fn run(plan: &Plan, text: &[u8]) -> Listing {
    let length = run_line_length(plan);
    let mut run = Run::power_on(plan);
    let mut listing = Listing { accepted: true, ..Listing::default() };
    for line in text.chunks(length) {
        let whole = line.len() == length && listing.lines < MOST_LINES;
        if !whole || run.frame(line, listing.lines, &mut listing.bytes).is_none() {
            listing.refusal = Some(Refusal { number: 10, line: listing.lines + 1 });
            break;
        }
        listing.lines += 1;
    }
    Listing { decided: run.decided, ..listing }
}

/// "A refusal prints number (4) and line (8) and ends the listing."
pub fn listing(plan_text: &[u8], run_text: &[u8]) -> Listing {
    let mut listing = match plan::read(plan_text) {
        Ok(plan) => run(&plan, run_text),
        Err(refusal) => Listing { refusal: Some(refusal), ..Listing::default() },
    };
    if let Some(refusal) = listing.refusal {
        push_refusal(&mut listing.bytes, refusal);
    }
    listing
}
