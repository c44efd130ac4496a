//! Request 2026-07: the mailbox card, a node's memory and bins behind a page of 16 bytes.

use super::frame::{message_length, Memory};
use super::plan::Plan;

/// "Byte 2 is the phase (0 compute, 1 broadcast, 2 vote, 3 sync)."
const COMPUTE: u8 = 0;
const BROADCAST: u8 = 1;
const VOTE: u8 = 2;
const PHASES: u8 = 4;

/// "Bit 0 frame timer due, bit 1 bins full, bit 2 interrupt line." The card keeps bits 0 and 1 of
/// flags and mask.
const DUE: u8 = 1;
const FULL: u8 = 2;
const INTERRUPT: u8 = 4;
const KEPT: u8 = DUE | FULL;

/// The mark of a filled bin; any other is an empty one's. The paper has no marks.
const FILLED: u8 = 1;
const EMPTY: u8 = 0;

/// A bin may hold bytes while it is empty.
#[derive(Clone, PartialEq, Eq, Debug)]
pub struct Bin {
    pub mark: u8,
    pub message: Vec<u8>,
}

impl Bin {
    fn is_empty(&self) -> bool {
        self.mark != FILLED
    }
}

/// A card with the plan's n bins.
#[derive(Clone, PartialEq, Eq, Debug)]
pub struct Card {
    pub memory: Memory,
    pub phase: u8,
    pub flags: u8,
    pub mask: u8,
    pub bins: Vec<Bin>,
}

impl Card {
    /// "At power-on phase, flags and mask are 0 and the bins empty."
    pub fn power_on(plan: &Plan) -> Card {
        let bin = Bin { mark: EMPTY, message: vec![0; message_length(plan)] };
        let bins = vec![bin; plan.nodes];
        Card { memory: Memory::power_on(plan), phase: 0, flags: 0, mask: 0, bins }
    }

    /// "A phase handed in counts modulo 4, a mask or flag bit not named here as 0."
    pub fn handed_in(memory: Memory, phase: u64, flags: u64, mask: u64, bins: Vec<Bin>) -> Card {
        let phase = (phase % u64::from(PHASES)) as u8;
        Card { memory, phase, flags: flags as u8 & KEPT, mask: mask as u8 & KEPT, bins }
    }

    /// A byte of the page, or none outside it. "Bytes 0-1 hold the counter, big-endian. Byte 2 is
    /// the phase. .. Byte 3 has flag bits. .. Byte 4 is the interrupt mask. .. Bytes 5-15 read as
    /// 0."
    pub fn read(&self, at: u64) -> Option<u8> {
        let [high, low] = self.memory.counter.to_be_bytes();
        match at {
            0 => Some(high),
            1 => Some(low),
            2 => Some(self.phase),
            3 => Some(self.flags | self.interrupt()),
            4 => Some(self.mask),
            5..=15 => Some(0),
            _ => None,
        }
    }

    /// "Bit 2 is 1 while a masked-in flag is, else 0."
    fn interrupt(&self) -> u8 {
        if self.flags & self.mask != 0 {
            INTERRUPT
        } else {
            0
        }
    }

    /// "Byte 4 is the interrupt mask for bits 0 and 1, its other bits always 0." "Byte 5 is written
    /// with ones to clear bits 0 and 1." None for "a write to a byte other than 4 and 5".
    pub fn write(&mut self, at: u64, value: u8) -> Option<()> {
        match at {
            4 => self.mask = value & KEPT,
            5 => self.flags &= !value,
            _ => return None,
        }
        Some(())
    }

    /// "A bin delivered again replaces the first; a bin number from n up, or outside phase 1,
    /// changes nothing. Bit 1 is set when the last empty bin is filled": no bin that was full
    /// before sets it.
    pub fn deliver(&mut self, number: u64, message: &[u8]) {
        let place = usize::try_from(number).ok().and_then(|number| self.bins.get_mut(number));
        let Some(bin) = place.filter(|_| self.phase == BROADCAST) else { return };
        let was_empty = bin.is_empty();
        *bin = Bin { mark: FILLED, message: message.to_vec() };
        if was_empty && !self.bins.iter().any(Bin::is_empty) {
            self.flags |= FULL;
        }
    }

    /// The mailbox: "a bin still empty counts as not sent", and "a node that sends nothing counts
    /// as having sent zero bytes".
    fn mailbox(&self) -> Vec<u8> {
        let sent = |bin: &Bin| match bin.is_empty() {
            true => vec![0; bin.message.len()],
            false => bin.message.clone(),
        };
        self.bins.iter().flat_map(sent).collect()
    }

    /// "A tick sets bit 0 and moves the phase on, from sync back to compute. Leaving compute runs
    /// the tasks, leaving vote votes, leaving sync gives the setpoints; other ticks don't touch
    /// their place." "Entering compute empties all": their bytes stay, and so does bit 1, which
    /// byte 5 alone clears.
    pub fn tick(&mut self, plan: &Plan, sensors: &[u64], place: &mut [u64]) {
        match self.phase {
            COMPUTE => self.memory.compute(plan, sensors),
            BROADCAST => {}
            VOTE => {
                self.memory.vote(plan, &self.mailbox());
            }
            _ => {
                for (actuator, setpoint) in place.iter_mut().enumerate() {
                    *setpoint = self.memory.setpoint(plan, actuator);
                }
                self.bins.iter_mut().for_each(|bin| bin.mark = EMPTY);
            }
        }
        self.flags |= DUE;
        self.phase = (self.phase + 1) % PHASES;
    }
}
