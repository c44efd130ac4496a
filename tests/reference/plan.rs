//! The plan: its text, refusals 1 to 6, and the recovery period.

/// "Six decimal numbers, right-justified in columns of width 4, 4, 4, 4, 20, 20, then a line feed."
pub const WIDTHS: [usize; 6] = [4, 4, 4, 4, 20, 20];
pub const LINE: usize = 57;
pub const LONGEST: usize = 35_169;
pub const MOST_TASKS: usize = 64;

pub type Row = [u64; 6];

/// "A refusal gives its number and a line from 1; 0 where no line is meant."
#[derive(Clone, Copy, PartialEq, Eq, Debug)]
pub struct Refusal {
    pub number: u64,
    pub line: usize,
}

pub fn refuse<T>(number: u64, line: usize) -> Result<T, Refusal> {
    Err(Refusal { number, line })
}

/// The seven kinds of task; cells and sensors by index, constants as patterns.
#[derive(Clone, Copy, Debug)]
pub enum Action {
    Take { sensor: usize },
    Sum { a: usize, b: usize },
    Diff { a: usize, b: usize },
    Scale { a: usize, factor: u64 },
    Limit { a: usize, low: u64, high: u64 },
    Wind { a: usize, rate: u64, cap: u64 },
    Cam { a: usize },
}

#[derive(Clone, Copy, Debug)]
pub struct Task {
    pub target: usize,
    pub action: Action,
}

#[derive(Clone, Debug)]
pub struct Plan {
    pub nodes: usize,
    pub frames: usize,
    pub cells: usize,
    pub sensors: usize,
    pub actuators: usize,
    pub initial: Vec<u64>,
    /// The tasks of each frame, in text order.
    pub tasks: Vec<Vec<Task>>,
    /// The cells voted in each frame, rising.
    pub votes: Vec<Vec<usize>>,
    /// The cell of each actuator.
    pub outputs: Vec<usize>,
    /// R; 0 until it has been worked out.
    pub period: usize,
}

/// The number of a column. "Only blanks stand before the digits. No leading zeros; zero is `0`;
/// no column is blank." "The largest number is 2^64 - 1."
pub fn number(column: &[u8]) -> Option<u64> {
    let blanks = column.iter().take_while(|&&byte| byte == b' ').count();
    let digits = &column[blanks..];
    if digits.is_empty() || (digits.len() > 1 && digits[0] == b'0') {
        return None;
    }
    let mut value = 0u64;
    for &digit in digits {
        if !digit.is_ascii_digit() {
            return None;
        }
        value = value.checked_mul(10)?.checked_add(u64::from(digit - b'0'))?;
    }
    Some(value)
}

/// The six numbers of a line, if line and columns are of the form.
fn row(line: &[u8]) -> Option<Row> {
    if line[LINE - 1] != b'\n' {
        return None;
    }
    let mut numbers = [0; 6];
    let mut start = 0;
    for (value, width) in numbers.iter_mut().zip(WIDTHS) {
        *value = number(&line[start..start + width])?;
        start += width;
    }
    Some(numbers)
}

fn finite(pattern: u64) -> bool {
    f64::from_bits(pattern).is_finite()
}

/// The plan read so far, with what the order of the next line depends on.
struct Reader {
    plan: Plan,
    tasks: usize,
    task_frame: u64,
    vote: Option<(u64, u64)>,
}

impl Reader {
    /// "3: the first line isn't kind 0, or a header number is outside its limits." The nodes' are 1
    /// to 7: "headers with 1 or 2 nodes were refused with 3 and are now accepted".
    fn header(row: Row) -> Option<Reader> {
        let [kind, nodes, frames, cells, sensors, actuators] = row;
        let within = kind == 0
            && (1..=7).contains(&nodes)
            && (1..=16).contains(&frames)
            && (1..=32).contains(&cells)
            && (1..=16).contains(&sensors)
            && (1..=8).contains(&actuators);
        within.then(|| Reader {
            plan: Plan {
                nodes: nodes as usize,
                frames: frames as usize,
                cells: cells as usize,
                sensors: sensors as usize,
                actuators: actuators as usize,
                initial: Vec::new(),
                tasks: vec![Vec::new(); frames as usize],
                votes: vec![Vec::new(); frames as usize],
                outputs: Vec::new(),
                period: 0,
            },
            tasks: 0,
            task_frame: 0,
            vote: None,
        })
    }

    /// Against 4: "The order is: one header; cells 0 to C-1; tasks (kinds 10-16), at most 64,
    /// frames not falling; votes, strictly rising by frame, then cell; actuators 0 to A-1."
    fn in_order(&self, row: &Row) -> bool {
        let plan = &self.plan;
        let cells_done = plan.initial.len() == plan.cells;
        let no_actuator = plan.outputs.is_empty();
        match row[0] {
            1 => !cells_done && row[1] == plan.initial.len() as u64,
            10..=16 => {
                let no_vote = self.vote.is_none();
                let due = cells_done && no_vote && no_actuator;
                due && self.tasks < MOST_TASKS && row[1] >= self.task_frame
            }
            20 => cells_done && no_actuator && Some((row[1], row[2])) > self.vote,
            30 => {
                let due = plan.outputs.len();
                cells_done && due < plan.actuators && row[1] == due as u64
            }
            _ => false,
        }
    }

    /// Against 5: "any other index out of range, an unused column not 0, constants against the
    /// rules (low <= high is compared as floats)."
    fn within_rules(&self, row: &Row) -> bool {
        let [kind, second, third, fourth, fifth, sixth] = *row;
        let frame = |index: u64| index < self.plan.frames as u64;
        let cell = |index: u64| index < self.plan.cells as u64;
        let sensor = |index: u64| index < self.plan.sensors as u64;
        let place = frame(second) && cell(third);
        match kind {
            1 => third == 0 && fourth == 0 && sixth == 0,
            10 => place && sensor(fourth) && fifth == 0 && sixth == 0,
            11 | 12 => place && cell(fourth) && cell(fifth) && sixth == 0,
            13 => place && cell(fourth) && finite(fifth) && sixth == 0,
            14 => {
                let ordered = f64::from_bits(fifth) <= f64::from_bits(sixth);
                place && cell(fourth) && finite(fifth) && finite(sixth) && ordered
            }
            15 => {
                let sign_clear = sixth >> 63 == 0;
                place && cell(fourth) && finite(fifth) && finite(sixth) && sign_clear
            }
            // "The columns of Sum but 0 as fifth."
            16 => place && cell(fourth) && fifth == 0 && sixth == 0,
            20 => place && fourth == 0 && fifth == 0 && sixth == 0,
            _ => cell(third) && fourth == 0 && fifth == 0 && sixth == 0,
        }
    }

    fn accept(&mut self, row: &Row) {
        let [kind, second, third, fourth, fifth, sixth] = *row;
        let (frame, target, a) = (second as usize, third as usize, fourth as usize);
        let action = match kind {
            1 => return self.plan.initial.push(fifth),
            20 => {
                self.vote = Some((second, third));
                return self.plan.votes[frame].push(target);
            }
            30 => return self.plan.outputs.push(target),
            10 => Action::Take { sensor: a },
            11 => Action::Sum { a, b: fifth as usize },
            12 => Action::Diff { a, b: fifth as usize },
            13 => Action::Scale { a, factor: fifth },
            14 => Action::Limit { a, low: fifth, high: sixth },
            15 => Action::Wind { a, rate: fifth, cap: sixth },
            _ => Action::Cam { a },
        };
        self.tasks += 1;
        self.task_frame = second;
        self.plan.tasks[frame].push(Task { target, action });
    }
}

/// Refusals 1 to 5, "line by line".
pub fn parse(text: &[u8]) -> Result<Plan, Refusal> {
    if text.is_empty() || text.len() > LONGEST || text.len() % LINE != 0 {
        return refuse(1, 0);
    }
    parse_rows(text.chunks_exact(LINE).map(row))
}

/// Refusals 2 to 5 of the lines, of which None is not of the form. "In one line 2 comes before 3
/// (first line only), then 4, then 5."
pub fn parse_rows(mut lines: impl Iterator<Item = Option<Row>>) -> Result<Plan, Refusal> {
    let Some(first) = lines.next().flatten() else { return refuse(2, 1) };
    let Some(mut reader) = Reader::header(first) else { return refuse(3, 1) };
    let mut past = 2;
    for row in lines {
        let Some(row) = row else { return refuse(2, past) };
        if !reader.in_order(&row) {
            return refuse(4, past);
        }
        if !reader.within_rules(&row) {
            return refuse(5, past);
        }
        reader.accept(&row);
        past += 1;
    }
    let plan = reader.plan;
    if plan.initial.len() < plan.cells || plan.outputs.len() < plan.actuators {
        return refuse(4, past);
    }
    Ok(plan)
}

/// The accepted plan with its recovery period.
pub fn read(text: &[u8]) -> Result<Plan, Refusal> {
    parse(text)?.with_period()
}

impl Plan {
    /// "6: no R exists. Line 0, after all of 1 to 5."
    pub fn with_period(mut self) -> Result<Plan, Refusal> {
        match self.recovery_period() {
            Some(period) => self.period = period,
            None => return refuse(6, 0),
        }
        Ok(self)
    }

    /// "After the first good frame g, known cells are those voted in g."
    fn known_first(&self, frame: usize) -> Vec<bool> {
        let mut known = vec![false; self.cells];
        self.votes[frame].iter().for_each(|&cell| known[cell] = true);
        known
    }

    /// "In each later frame, tasks in order: a task's target becomes known if all cells it reads
    /// are known, unknown otherwise (Take reads none; Wind reads its target too); then the cells
    /// voted in that frame become known." Cam "reads cell a".
    fn known_next(&self, frame: usize, known: &mut [bool]) {
        for task in &self.tasks[frame] {
            known[task.target] = match task.action {
                Action::Take { .. } => true,
                Action::Sum { a, b } | Action::Diff { a, b } => known[a] && known[b],
                Action::Scale { a, .. } | Action::Limit { a, .. } | Action::Cam { a } => known[a],
                Action::Wind { a, .. } => known[a] && known[task.target],
            };
        }
        self.votes[frame].iter().for_each(|&cell| known[cell] = true);
    }

    /// The cells known after `count` good frames (1 or more), the first of them `first`.
    pub fn known_after(&self, first: usize, count: usize) -> Vec<bool> {
        let mut known = self.known_first(first);
        for later in 1..count {
            self.known_next((first + later) % self.frames, &mut known);
        }
        known
    }

    /// "R is the least count such that for every first frame, all cells are known after R good
    /// frames. If any exists, R <= 1 + F x C." All first frames are followed side by side.
    pub fn recovery_period(&self) -> Option<usize> {
        let mut known: Vec<_> = (0..self.frames).map(|first| self.known_first(first)).collect();
        for count in 1..=1 + self.frames * self.cells {
            if known.iter().flatten().all(|&cell| cell) {
                return Some(count);
            }
            for (first, known) in known.iter_mut().enumerate() {
                self.known_next((first + count) % self.frames, known);
            }
        }
        None
    }
}
