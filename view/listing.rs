//! A run as the proved program lists it, with what the nodes' masks say beside it.

use super::cause::Refusal;
use super::programs::refusal;
use super::text::Row;

/// One line of a listing.
#[derive(Clone, PartialEq, Eq, Debug)]
pub struct Frame {
    pub working: u64,
    pub equal: u64,
    pub setpoints: Vec<u64>,
    pub agreement: u64,
}

pub struct Listing {
    pub frames: Vec<Frame>,
    pub refusal: Option<Refusal>,
}

/// The listing's lines: frame (8), working (4), equal (4), setpoints (20 each), agreement (4).
pub fn read(bytes: &[u8], actuators: usize) -> Listing {
    let number = |part: &[u8]| std::str::from_utf8(part).ok()?.trim().parse::<u64>().ok();
    let frame = |line: &[u8]| {
        let end = 16 + 20 * actuators;
        Some(Frame {
            working: number(line.get(8..12)?)?,
            equal: number(line.get(12..16)?)?,
            setpoints: line.get(16..end)?.chunks(20).map(number).collect::<Option<_>>()?,
            agreement: number(line.get(end..end + 4)?)?,
        })
    };
    let frames = bytes.split(|&byte| byte == b'\n').map_while(frame).collect();
    Listing { frames, refusal: refusal(bytes) }
}

/// What a node is in a frame, by the masks up to it and R.
#[derive(Clone, Copy, PartialEq, Eq, Debug)]
pub enum State {
    Bad,
    /// Good, and not yet for R frames before this one: how many frames it has been good, this one
    /// among them.
    Recovering(usize),
    Working,
}

/// The states of all nodes in each frame: "a bad node's count becomes 0; a good one's rises by 1 up
/// to R. A node is working in a frame if it is good in it and its count before was R."
pub fn states(masks: impl Iterator<Item = u64>, nodes: usize, period: usize) -> Vec<Vec<State>> {
    let mut counts = vec![period; nodes];
    masks
        .map(|mask| {
            let state = |(node, count): (usize, &mut usize)| {
                let before = *count;
                if mask >> node & 1 == 1 {
                    *count = 0;
                    return State::Bad;
                }
                *count = period.min(before + 1);
                if before == period {
                    State::Working
                } else {
                    State::Recovering(*count)
                }
            };
            counts.iter_mut().enumerate().map(state).collect()
        })
        .collect()
}

/// The first frame in which not more than half of the nodes work. Demand 3 is about a whole list of
/// frames: it promises those before this one, and from it on nothing, whoever works later.
pub fn promise_end(frames: &[Frame], nodes: usize) -> Option<usize> {
    frames.iter().position(|frame| 2 * frame.working <= nodes as u64)
}

/// A fault: one node is bad in these frames, from the first to the last, and not in those beside.
#[derive(Clone, Copy, PartialEq, Eq, Debug)]
pub struct Fault {
    pub node: usize,
    pub first: usize,
    pub last: usize,
}

/// The stretches of frames in which a test holds.
pub fn stretches(count: usize, test: impl Fn(usize) -> bool) -> Vec<(usize, usize)> {
    let mut found: Vec<(usize, usize)> = Vec::new();
    for frame in (0..count).filter(|&frame| test(frame)) {
        match found.last_mut() {
            Some((_, last)) if *last + 1 == frame => *last = frame,
            _ => found.push((frame, frame)),
        }
    }
    found
}

pub fn faults(states: &[Vec<State>], nodes: usize) -> Vec<Fault> {
    let of = |node: usize| stretches(states.len(), move |frame| states[frame][node] == State::Bad);
    let fault = |node| move |(first, last)| Fault { node, first, last };
    (0..nodes).flat_map(|node| of(node).into_iter().map(fault(node))).collect()
}

/// A run with everything that is shown of it.
#[derive(Clone)]
pub struct Run {
    pub header: Row,
    pub period: usize,
    pub masks: Vec<u64>,
    pub states: Vec<Vec<State>>,
    pub frames: Vec<Frame>,
    /// The same run with masks 0, by the proved program.
    pub without_faults: Vec<Frame>,
    pub faults: Vec<Fault>,
    /// The frame from which on nothing is promised.
    pub promise_end: Option<usize>,
    /// What ended it before its end.
    pub refusal: Option<Refusal>,
}

impl Run {
    /// Whether what was worked out beside the listings fits them: a frame for each of the masks and
    /// in both listings, and as many working nodes as are listed.
    pub fn is_listed(&self) -> bool {
        let count = self.frames.len();
        let working = |states: &[State]| {
            states.iter().filter(|state| **state == State::Working).count() as u64
        };
        self.without_faults.len() == count
            && self.states.len() == count
            && self
                .states
                .iter()
                .zip(&self.frames)
                .all(|(states, frame)| working(states) == frame.working)
    }

    pub fn nodes(&self) -> usize {
        self.header[1] as usize
    }

    pub fn actuators(&self) -> usize {
        self.header[5] as usize
    }

    /// Whether a setpoint is not what a press without faults would get, by its bits.
    pub fn differs(&self, frame: usize, actuator: usize) -> bool {
        self.frames[frame].setpoints[actuator] != self.without_faults[frame].setpoints[actuator]
    }

    pub fn any_differs(&self, frame: usize) -> bool {
        (0..self.actuators()).any(|actuator| self.differs(frame, actuator))
    }

    pub fn is_promised(&self, frame: usize) -> bool {
        self.promise_end.is_none_or(|end| frame < end)
    }
}
