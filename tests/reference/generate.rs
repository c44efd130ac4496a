//! Plans and runs that are whole: plan rows, run lines, and their texts.

use super::listing::push_number;
use super::plan::{parse, read, Plan, Row, LINE, LONGEST, MOST_TASKS, WIDTHS};
use super::random::{Random, Values};

pub fn push_columns(out: &mut Vec<u8>, columns: &[u64], widths: impl Iterator<Item = usize>) {
    for (&value, width) in columns.iter().zip(widths) {
        push_number(out, value, width);
    }
    out.push(b'\n');
}

pub fn plan_text(rows: &[Row]) -> Vec<u8> {
    let mut out = Vec::new();
    rows.iter().for_each(|row| push_columns(&mut out, row, WIDTHS.into_iter()));
    out
}

pub fn run_text(lines: &[Vec<u64>]) -> Vec<u8> {
    let mut out = Vec::new();
    let widths = [4, 4].into_iter().chain(std::iter::repeat(20));
    lines.iter().for_each(|line| push_columns(&mut out, line, widths.clone()));
    out
}

/// A header's numbers: nodes, frames, cells, sensors, actuators.
pub type Sizes = [usize; 5];

/// Each number of nodes comes as often.
fn sizes(r: &Random) -> Sizes {
    [r.between(1, 7), r.size(1, 16), r.size(1, 32), r.size(1, 16), r.size(1, 8)]
}

fn task(r: &Random, values: &Values, sizes: Sizes, kind: u64, place: [u64; 2]) -> Row {
    let [frame, target] = place;
    let [a, b] = [r.below(sizes[2]) as u64, r.below(sizes[2]) as u64];
    match kind {
        10 => [10, frame, target, r.below(sizes[3]) as u64, 0, 0],
        11 | 12 => [kind, frame, target, a, b, 0],
        13 => [13, frame, target, a, values.constant(r), 0],
        14 => {
            let [low, high] = bounds(r, values);
            [14, frame, target, a, low, high]
        }
        15 => {
            let cap = if r.one_in(6) { 0 } else { values.constant(r) & !(1 << 63) };
            [15, frame, target, a, values.constant(r), cap]
        }
        _ => [16, frame, target, a, 0, 0],
    }
}

/// Low and high of a Limit, in order as floats; equal ones and the two zeros either way too.
fn bounds(r: &Random, values: &Values) -> [u64; 2] {
    let [x, y] = [values.constant(r), values.constant(r)];
    match r.below(8) {
        0 => [x, x],
        1 => [0, 1 << 63],
        2 => [1 << 63, 0],
        _ if f64::from_bits(x) > f64::from_bits(y) => [y, x],
        _ => [x, y],
    }
}

fn tasks(r: &Random, values: &Values, sizes: Sizes) -> Vec<Row> {
    let count = match r.below(12) {
        0 => 0,
        1 | 2 => MOST_TASKS,
        3..=6 => r.between(1, 12),
        _ => r.between(1, MOST_TASKS),
    };
    let mut frames: Vec<_> = (0..count).map(|_| r.below(sizes[1]) as u64).collect();
    frames.sort();
    // All kinds in turn, or any kinds, one of them more often, or mostly cams and Takes.
    let cams = values.positions() && !r.one_in(4);
    let (in_turn, favourite) = (!cams && r.one_in(2), r.below(7));
    let row = |(number, frame)| {
        let any = match cams {
            true => r.pick(&[0, 6, r.below(7)]),
            false => r.pick(&[favourite, r.below(7), r.below(7)]),
        };
        let kind = 10 + if in_turn { (number + favourite) % 7 } else { any } as u64;
        let target = r.below(sizes[2]) as u64;
        task(r, values, sizes, kind, [frame, target])
    };
    let mut rows: Vec<_> = frames.into_iter().enumerate().map(row).collect();
    if cams {
        read_sensors(r, &mut rows);
    }
    rows
}

/// Lets most cams read the target of a Take, so that their positions come from sensors.
fn read_sensors(r: &Random, tasks: &mut [Row]) {
    let taken: Vec<_> = tasks.iter().filter(|row| row[0] == 10).map(|row| row[2]).collect();
    for row in tasks.iter_mut().filter(|row| row[0] == 16) {
        if !taken.is_empty() && !r.one_in(3) {
            row[3] = r.pick(&taken);
        }
    }
}

/// Each cell is made of the one before it, last cell first, all in one frame: nothing is voted,
/// one more cell becomes known in each round, and R is 1 + F x C.
pub fn chain(r: &Random, values: &Values, sizes: Sizes) -> Vec<Row> {
    let frame = r.below(sizes[1]) as u64;
    let mut rows = Vec::new();
    for target in (1..sizes[2] as u64).rev() {
        let kind = r.pick(&[11, 12, 13, 14, 16]);
        let mut row = task(r, values, sizes, kind, [frame, target]);
        row[3] = target - 1;
        if kind < 13 {
            row[4] = target - 1;
        }
        rows.push(row);
    }
    rows.push(task(r, values, sizes, 10, [frame, 0]));
    rows
}

pub fn votes(r: &Random, sizes: Sizes, percent: usize) -> Vec<Row> {
    let all = (0..sizes[1]).flat_map(|frame| (0..sizes[2]).map(move |cell| (frame, cell)));
    all.filter(|_| r.below(100) < percent)
        .map(|(frame, cell)| [20, frame as u64, cell as u64, 0, 0, 0])
        .collect()
}

pub fn assemble(r: &Random, values: &Values, sizes: Sizes, middle: &[Row]) -> Vec<Row> {
    let [n, f, c, s, a] = sizes.map(|size| size as u64);
    let mut rows = vec![[0, n, f, c, s, a]];
    rows.extend((0..c).map(|cell| [1, cell, 0, 0, values.any(r), 0]));
    rows.extend_from_slice(middle);
    rows.extend((0..a).map(|actuator| {
        // Cells that tasks write or that are voted make the more telling setpoints.
        let any = r.below(sizes[2]) as u64;
        let cell = if middle.is_empty() || r.one_in(3) { any } else { r.pick(middle)[2] };
        [30, actuator, cell, 0, 0, 0]
    }));
    rows
}

/// Adds votes for cells that never become known until a recovery period exists.
fn repair(r: &Random, rows: &mut Vec<Row>) {
    loop {
        let plan = parse(&plan_text(rows)).expect("a plan that keeps rules 1 to 5");
        if plan.recovery_period().is_some() {
            return;
        }
        let known = plan.known_after(0, 1 + plan.frames * plan.cells);
        let cell = known.iter().position(|&cell| !cell).expect("a cell that is never known");
        let vote = [20, r.below(plan.frames) as u64, cell as u64, 0, 0, 0];
        let at = rows.iter().take_while(|row| row[0] < 20 || **row < vote).count();
        if rows[at] != vote {
            rows.insert(at, vote);
        }
    }
}

/// A plan that keeps rules 1 to 5, with or without a recovery period.
fn unrepaired(r: &Random, values: &Values) -> Vec<Row> {
    let sizes = sizes(r);
    let percent = r.pick(&[0, 3, 10, 30, 60, 100]);
    let middle = [tasks(r, values, sizes), votes(r, sizes, percent)].concat();
    assemble(r, values, sizes, &middle)
}

pub fn recovering(r: &Random, values: &Values) -> Vec<Row> {
    let mut rows = unrepaired(r, values);
    repair(r, &mut rows);
    rows
}

/// All cells voted in all frames, or all but one in one frame: R is 1, or mostly 2.
pub fn quick(r: &Random, values: &Values) -> Vec<Row> {
    let sizes = sizes(r);
    let mut votes = votes(r, sizes, 100);
    if r.one_in(2) {
        votes.remove(r.below(votes.len()));
    }
    let mut rows = assemble(r, values, sizes, &[tasks(r, values, sizes), votes].concat());
    repair(r, &mut rows);
    rows
}

pub fn slow(r: &Random, values: &Values) -> Vec<Row> {
    slow_of(r, values, sizes(r))
}

fn slow_of(r: &Random, values: &Values, sizes: Sizes) -> Vec<Row> {
    let tasks = chain(r, values, sizes);
    assemble(r, values, sizes, &tasks)
}

/// R is 1 + F x C and above 60, and 513 where `most`; three nodes or more.
pub fn slowest(r: &Random, values: &Values, most: bool) -> Vec<Row> {
    let mut sizes = sizes(r);
    sizes[0] = r.between(3, 7);
    [sizes[1], sizes[2]] = match most {
        true => [16, 32],
        false => [r.between(4, 16), r.between(15, 32)],
    };
    slow_of(r, values, sizes)
}

/// 617 lines: all sizes and counts at their upper limit.
pub fn longest(r: &Random, values: &Values) -> Vec<Row> {
    let sizes = [r.between(1, 7), 16, 32, 16, 8];
    let mut tasks = tasks(r, values, sizes);
    while tasks.len() < MOST_TASKS {
        let target = r.below(sizes[2]) as u64;
        tasks.push(task(r, values, sizes, 10, [15, target]));
    }
    let rows = assemble(r, values, sizes, &[tasks, votes(r, sizes, 100)].concat());
    assert_eq!(rows.len() * LINE, LONGEST);
    rows
}

/// A plan with no recovery period: one that lacks votes, or one with a cell that nothing reaches.
pub fn never(r: &Random, values: &Values) -> Vec<Row> {
    loop {
        let mut rows = if r.one_in(2) { recovering(r, values) } else { unrepaired(r, values) };
        let cell = r.below(rows[0][3] as usize) as u64;
        match r.below(3) {
            0 => rows.retain(|row| row[0] < 10 || row[0] == 30 || row[2] != cell),
            1 => rows.retain(|row| row[0] != 20 || r.one_in(2)),
            _ => rows.retain(|row| row[0] != 20 || row[2] != cell),
        }
        if read(&plan_text(&rows)).is_err() {
            return rows;
        }
    }
}

/// How the masks of a run are chosen.
#[derive(Clone, Copy)]
pub enum Masks {
    Quiet,
    /// In each frame more than half of the nodes are good in it and in the R frames before it: of
    /// one or two nodes all, in every frame.
    Premise,
    Any,
    Extreme,
    /// A mask stays for some frames, then another one or none.
    Stretches,
    /// Fewer than half of the nodes are bad for one to three frames, then none for R frames or a
    /// few more: within the premise, and each node that was bad works again.
    Seldom,
    /// Half of the nodes are bad in most frames: the same, the other half, or another one. Of 2, 4
    /// and 6 nodes the bad half ties with the good one at the plane.
    Halves,
}

pub const OUTSIDE: [Masks; 5] =
    [Masks::Any, Masks::Extreme, Masks::Stretches, Masks::Stretches, Masks::Halves];

/// Any half of the nodes, rounded down.
pub fn half(r: &Random, nodes: usize) -> u64 {
    let mut mask = 0u64;
    while (mask.count_ones() as usize) < nodes / 2 {
        mask |= 1 << r.below(nodes);
    }
    mask
}

/// Makes run lines one by one; `counts` are the nodes' good counts.
struct Lines<'a> {
    plan: &'a Plan,
    values: &'a Values,
    masks: Masks,
    fill: Option<u64>,
    mask: u64,
    /// How many frames more a mask of `Seldom` stays.
    stays: usize,
    counts: Vec<usize>,
    sensors: Vec<u64>,
}

impl<'a> Lines<'a> {
    fn new(r: &Random, plan: &'a Plan, values: &'a Values, masks: Masks) -> Lines<'a> {
        let fill = r.pick(&[None, None, Some(0), Some(0), Some(255), Some(1)]);
        let sensors = (0..plan.sensors).map(|_| values.any(r)).collect();
        let counts = vec![plan.period; plan.nodes];
        let stays = if matches!(masks, Masks::Seldom) { r.below(4) } else { 0 };
        let mask = if matches!(masks, Masks::Halves) { half(r, plan.nodes) } else { 0 };
        Lines { plan, values, masks, fill, mask, stays, counts, sensors }
    }

    fn any_mask(&self, r: &Random) -> u64 {
        match r.below(3) {
            0 => 1 << r.below(self.plan.nodes),
            1 => r.next() & r.next() & (1 << self.plan.nodes) - 1,
            _ => r.next() & (1 << self.plan.nodes) - 1,
        }
    }

    fn choose_mask(&mut self, r: &Random) {
        let all = (1 << self.plan.nodes) - 1;
        self.mask = match self.masks {
            Masks::Quiet => 0,
            Masks::Premise if r.one_in(3) => self.any_mask(r),
            Masks::Premise => 0,
            Masks::Any => self.any_mask(r),
            Masks::Extreme => r.pick(&[0, 0, all, 1 << r.below(self.plan.nodes)]),
            Masks::Stretches if r.one_in(4) => r.pick(&[0, 0, self.any_mask(r)]),
            Masks::Stretches => self.mask,
            Masks::Seldom => self.seldom_mask(r),
            Masks::Halves => match r.below(8) {
                0 => 0,
                1 => self.any_mask(r),
                2 | 3 => half(r, self.plan.nodes),
                4 | 5 => all ^ self.mask,
                _ => self.mask,
            },
        };
        if matches!(self.masks, Masks::Premise) {
            self.keep_premise();
        }
    }

    fn seldom_mask(&mut self, r: &Random) -> u64 {
        if self.stays > 0 {
            self.stays -= 1;
            return self.mask;
        }
        if self.mask != 0 {
            self.stays = self.plan.period - 1 + r.pick(&[0, 0, 1, r.below(4)]);
            return 0;
        }
        self.stays = r.below(3);
        let most = (self.plan.nodes - 1) / 2;
        (0..r.between(most.min(1), most)).fold(0, |mask, _| mask | 1 << r.below(self.plan.nodes))
    }

    /// Drops the mask if half of the nodes or fewer would be working.
    fn keep_premise(&mut self) {
        let working = |(node, &count): (usize, &usize)| {
            self.mask >> node & 1 == 0 && count == self.plan.period
        };
        let working = self.counts.iter().enumerate().filter(|&node| working(node)).count();
        if 2 * working <= self.plan.nodes {
            self.mask = 0;
        }
        for (node, count) in self.counts.iter_mut().enumerate() {
            let good = self.mask >> node & 1 == 0;
            *count = if good { self.plan.period.min(*count + 1) } else { 0 };
        }
    }

    fn line(&mut self, r: &Random) -> Vec<u64> {
        self.choose_mask(r);
        for sensor in &mut self.sensors {
            if r.one_in(2) {
                *sensor = self.values.any(r);
            }
        }
        let random = r.pick(&[0, 255, 1, 127, 128, r.below(256) as u64]);
        let mut line = vec![self.mask, self.fill.unwrap_or(random)];
        line.extend_from_slice(&self.sensors);
        line
    }
}

pub fn run(r: &Random, plan: &Plan, values: &Values, masks: Masks, count: usize) -> Vec<u8> {
    let mut lines = Lines::new(r, plan, values, masks);
    run_text(&(0..count).map(|_| lines.line(r)).collect::<Vec<_>>())
}
