//! Why a plan text or a run line is refused, in words. The refusal itself, its number and its line,
//! always comes from the proved program: what is found here is shown only where number and line are
//! the same.

use std::ops::Range;

use super::names::Names;
use super::pattern::shown;
use super::runs::{MOST, SILENT};
use super::text::{self, columns, is_task, kind_words, number, place, Malformed, Row};

/// "A refusal gives its number and a line from 1; 0 where no line is meant."
#[derive(Clone, Copy, PartialEq, Eq, Debug)]
pub struct Refusal {
    pub number: u64,
    pub line: usize,
}

/// What the refused line has wrong.
#[derive(Clone, PartialEq, Eq, Debug)]
pub struct Cause {
    pub refusal: Refusal,
    /// The column meant, from 0: its place in the line and its name.
    pub column: Option<(usize, Range<usize>, String)>,
    /// Of refusal 6 the cells that never become known.
    pub cells: Vec<usize>,
    pub words: String,
}

impl Cause {
    fn new(number: u64, line: usize, words: impl Into<String>) -> Cause {
        let refusal = Refusal { number, line };
        Cause { refusal, column: None, cells: Vec::new(), words: words.into() }
    }
}

/// Document 01's rule behind each refusal, with the limits that requests have moved.
pub fn rule(number: u64) -> &'static str {
    match number {
        1 => "a plan text is 1 to 617 lines of 57 bytes, 35,169 bytes at most",
        2 => "a line is six numbers, right-justified in columns of width 4, 4, 4, 4, 20, 20, then a line feed; only blanks before the digits, no leading zeros, nothing above 2^64 - 1",
        3 => "the first line is the header, kind 0: nodes 1 to 7, frames 1 to 16, cells 1 to 32, sensors 1 to 16, actuators 1 to 8",
        4 => "the order is: one header; cells 0 to C - 1; tasks (kinds 10 to 16), at most 64, frames not falling; votes, strictly rising by frame, then cell; actuators 0 to A - 1",
        5 => "frames, cells and sensors are below the header's numbers, unused columns are 0, constants are finite, low <= high as floats, cap has sign bit 0",
        6 => "after some number of good frames, whichever frame was the first, every cell must be known: voted, or made by a task from cells that are known",
        10 => "a run line is mask (width 4), fill (4), a pattern for each sensor (20), then a line feed; mask below 2^nodes, fill at most 255, at most 100,000 lines",
        11 => "histories are listed for plans of at most 5 nodes",
        _ => "document 01 has the rule",
    }
}

fn malformed(name: &str, why: &Malformed) -> String {
    match why {
        Malformed::Blank => format!("{name} is blank"),
        Malformed::LeadingZero => format!("{name} has a leading zero"),
        Malformed::Byte(byte) => {
            format!("{name} has '{}' in it, where only a digit can stand", byte.escape_ascii())
        }
        Malformed::TooLarge => format!("{name} is above 2^64 - 1"),
    }
}

/// The kind of a line, where it can be read: it tells the names of the columns.
fn kind_of(line: &[u8]) -> u64 {
    number(&line[place(0)]).unwrap_or(u64::MAX)
}

/// A column's name in a line of a kind; one that has none by its number.
fn column_name(kind: u64, column: usize) -> String {
    match columns(kind)[column] {
        "" => format!("column {}", column + 1),
        name => String::from(name),
    }
}

/// `9 cells (0 to 8)`
fn range(count: u64, what: &str) -> String {
    match count {
        1 => format!("1 {what} (0)"),
        _ => format!("{count} {what}s (0 to {})", count - 1),
    }
}

fn list(names: &[String]) -> String {
    match names {
        [one] => one.clone(),
        [first @ .., last] => format!("{} and {last}", first.join(", ")),
        [] => String::new(),
    }
}

/// What the order of the next line depends on.
#[derive(Default)]
struct Order {
    header: Row,
    cells: u64,
    tasks: usize,
    task_frame: u64,
    vote: Option<(u64, u64)>,
    actuators: u64,
}

/// A column from 0 and what is wrong with it.
type Wrong = (usize, String);

impl Order {
    /// 2: the first column that is not of form, or the line's end.
    fn form(line: &[u8]) -> Result<Row, (Option<usize>, String)> {
        let kind = kind_of(line);
        let mut row = Row::default();
        for (column, value) in row.iter_mut().enumerate() {
            let name = column_name(kind, column);
            *value = number(&line[place(column)])
                .map_err(|why| (Some(column), malformed(&name, &why)))?;
        }
        match line[text::LINE - 1] {
            b'\n' => Ok(row),
            byte => {
                let end = byte.escape_ascii();
                Err((None, format!("the line ends with '{end}' and not with a line feed")))
            }
        }
    }

    /// 3
    fn header(row: &Row) -> Option<Wrong> {
        if row[0] != text::HEADER {
            return Some((0, format!("kind is {}, the first line is the header, kind 0", row[0])));
        }
        let most = [0, 7, 16, 32, 16, 8];
        let column = (1..6).find(|&column| !(1..=most[column]).contains(&row[column]))?;
        let name = columns(text::HEADER)[column];
        Some((column, format!("{name} is {}, a plan has 1 to {}", row[column], most[column])))
    }

    /// 4
    fn order(&self, row: &Row) -> Option<Wrong> {
        let [kind, second, third, ..] = *row;
        let [_, _, _, cells, _, actuators] = self.header;
        let what = kind_words(kind);
        let after = |earlier: &str| Some((0, format!("the line is {what}, after {earlier}")));
        match kind {
            text::HEADER => Some((0, String::from("the line is a second header"))),
            _ if !matches!(kind, text::CELL | text::VOTE | text::ACTUATOR) && !is_task(kind) => {
                Some((0, format!("kind is {kind}; the kinds are 0, 1, 10 to 16, 20 and 30")))
            }
            text::CELL if self.cells == cells => {
                Some((0, format!("the line is a cell, and all {cells} stand before it")))
            }
            text::CELL if second != self.cells => {
                Some((1, format!("cell is {second}, the next one due is {}", self.cells)))
            }
            text::CELL => None,
            _ if self.cells < cells => {
                Some((0, format!("the line is {what}, where cell {} of {} is due", self.cells, range(cells, "cell"))))
            }
            text::ACTUATOR if self.actuators == actuators => {
                Some((0, format!("the line is an actuator, and all {actuators} stand before it")))
            }
            text::ACTUATOR if second != self.actuators => {
                Some((1, format!("actuator is {second}, the next one due is {}", self.actuators)))
            }
            text::ACTUATOR => None,
            _ if self.actuators > 0 => after("an actuator"),
            text::VOTE => match self.vote {
                Some((frame, cell)) if (second, third) <= (frame, cell) => Some((
                    if second < frame { 1 } else { 2 },
                    format!("the vote of frame {second}, cell {third} follows that of frame {frame}, cell {cell}; votes rise"),
                )),
                _ => None,
            },
            _ if self.vote.is_some() => after("a vote"),
            _ if self.tasks == text::MOST_TASKS => {
                Some((0, String::from("the line is the 65th task, a plan has at most 64")))
            }
            _ if second < self.task_frame => {
                Some((1, format!("frame is {second}, after a task of frame {}; frames do not fall", self.task_frame)))
            }
            _ => None,
        }
    }

    /// 5: the first column against the rules.
    fn rules(&self, row: &Row) -> Option<Wrong> {
        let [_, _, frames, cells, sensors, _] = self.header;
        let kind = row[0];
        (1..6).find_map(|column| {
            let value = row[column];
            let name = columns(kind)[column];
            let below = |count: u64, what: &str| {
                (value >= count)
                    .then(|| format!("{name} is {value}, the plan has {}", range(count, what)))
            };
            let words = match name {
                "" => (value != 0).then(|| {
                    format!(
                        "column {} is {value}, it is unused in {} and must be 0",
                        column + 1,
                        kind_words(kind)
                    )
                }),
                "frame" => below(frames, "frame"),
                "sensor" => below(sensors, "sensor"),
                "target" | "cell a" | "cell b" => below(cells, "cell"),
                "cell" if kind != text::CELL => below(cells, "cell"),
                "factor" | "low" | "high" | "rate" | "cap"
                    if !f64::from_bits(value).is_finite() =>
                {
                    Some(format!("{name} is {}, it must be finite", shown(value)))
                }
                "low"
                    if f64::from_bits(row[5]).is_finite()
                        && f64::from_bits(value) > f64::from_bits(row[5]) =>
                {
                    Some(format!("low is {}, above high, which is {}", shown(value), shown(row[5])))
                }
                "cap" if value >> 63 == 1 => {
                    Some(format!("cap is {}, its sign bit must be 0", shown(value)))
                }
                _ => None,
            };
            words.map(|words| (column, words))
        })
    }

    fn accept(&mut self, row: &Row) {
        match row[0] {
            text::CELL => self.cells += 1,
            text::VOTE => self.vote = Some((row[1], row[2])),
            text::ACTUATOR => self.actuators += 1,
            _ => {
                self.tasks += 1;
                self.task_frame = row[1];
            }
        }
    }

    /// 4, at the end.
    fn absent(&self) -> Option<String> {
        let [_, _, _, cells, _, actuators] = self.header;
        let (had, count, what) = match self.cells < cells {
            true => (self.cells, cells, "cell"),
            false => (self.actuators, actuators, "actuator"),
        };
        match count - had {
            0 => None,
            1 => Some(format!("the text ends, and {what} {had} is missing")),
            _ => Some(format!("the text ends, and {what}s {had} to {} are missing", count - 1)),
        }
    }
}

/// 1
fn length(text: &[u8]) -> Option<String> {
    if text.is_empty() {
        return Some(String::from("the text is empty"));
    }
    if text.len() % text::LINE != 0 {
        let mut lines = text.split_inclusive(|&byte| byte == b'\n').enumerate();
        let odd = lines.find(|(_, line)| line.len() != text::LINE);
        let found = odd.map_or(String::new(), |(index, line)| {
            let ending =
                if line.ends_with(b"\r\n") { " and ends with a carriage return" } else { "" };
            format!("; line {} has {}{ending}", index + 1, line.len())
        });
        return Some(format!("the text has {} bytes, no multiple of 57{found}", text.len()));
    }
    (text.len() > text::LONGEST).then(|| {
        format!("the text has {} lines, the longest plan has 617", text.len() / text::LINE)
    })
}

/// The cells that are unknown after as many good frames as could ever help, from some first frame.
fn never_known(rows: &[Row]) -> Vec<usize> {
    let [_, _, frames, cells, _, _] = rows[0];
    let (frames, cells) = (frames as usize, cells as usize);
    let of = |frame: usize| rows.iter().skip(1).filter(move |row| row[1] == frame as u64);
    let vote = |frame: usize, known: &mut [bool]| {
        of(frame).filter(|row| row[0] == text::VOTE).for_each(|row| known[row[2] as usize] = true);
    };
    let mut never = vec![false; cells];
    for first in 0..frames {
        let mut known = vec![false; cells];
        vote(first, &mut known);
        for later in 1..=frames * cells {
            let frame = (first + later) % frames;
            for row in of(frame).filter(|row| is_task(row[0])) {
                let [kind, _, target, a, b, _] = row.map(|number| number as usize);
                known[target] = match kind as u64 {
                    text::TAKE => true,
                    text::SUM | text::DIFF => known[a] && known[b],
                    text::WIND => known[a] && known[target],
                    _ => known[a],
                };
            }
            vote(frame, &mut known);
        }
        never.iter_mut().zip(&known).for_each(|(never, known)| *never |= !known);
    }
    (0..cells).filter(|&cell| never[cell]).collect()
}

/// What the lines of a text have wrong, one after another, or else their numbers.
fn of_lines(text: &[u8]) -> Result<Vec<Row>, Cause> {
    let mut order = Order::default();
    let mut rows = Vec::new();
    for (index, line) in text.chunks_exact(text::LINE).enumerate() {
        let at = |number: u64, column: Option<usize>, words: String| {
            let named = |column| (column, place(column), column_name(kind_of(line), column));
            Cause { column: column.map(named), ..Cause::new(number, index + 1, words) }
        };
        let row = Order::form(line).map_err(|(column, words)| at(2, column, words))?;
        let (number, wrong) = match (index, order.order(&row)) {
            (0, _) => (3, Order::header(&row)),
            (_, Some(wrong)) => (4, Some(wrong)),
            (_, None) => (5, order.rules(&row)),
        };
        if let Some((column, words)) = wrong {
            return Err(at(number, Some(column), words));
        }
        match index {
            0 => order.header = row,
            _ => order.accept(&row),
        }
        rows.push(row);
    }
    match order.absent() {
        Some(words) => Err(Cause::new(4, rows.len() + 1, words)),
        None => Ok(rows),
    }
}

/// What a plan text has wrong, if anything is found. With names, cells go by them.
pub fn of_plan(text: &[u8], names: Option<&Names>) -> Option<Cause> {
    if let Some(words) = length(text) {
        return Some(Cause::new(1, 0, words));
    }
    let cells = match of_lines(text) {
        Ok(rows) => never_known(&rows),
        Err(cause) => return Some(cause),
    };
    let name = |&cell: &usize| match names {
        Some(names) => names.cells[cell].clone(),
        None => cell.to_string(),
    };
    let never: Vec<_> = cells.iter().map(name).collect();
    let (noun, verb) = if never.len() == 1 { ("cell", "is") } else { ("cells", "are") };
    let words = format!(
        "{noun} {} {verb} never known for good, however long a node stays good: vote, or make from known cells",
        list(&never)
    );
    (!never.is_empty()).then(|| Cause { cells, ..Cause::new(6, 0, words) })
}

/// The size of a run line.
pub fn run_line(sensors: usize) -> usize {
    9 + 20 * sensors
}

/// Why a run line has not its length or its end.
fn run_form(bytes: &[u8], sensors: u64) -> Option<String> {
    let size = run_line(sensors as usize);
    let end = bytes.iter().position(|&byte| byte == b'\n');
    let found = match end {
        Some(end) if end + 1 == size => return None,
        Some(end) => format!("the line has {} bytes", end + 1),
        None if bytes.len() < size => {
            format!("the line has {} bytes and no line feed", bytes.len())
        }
        None => format!("no line feed stands at byte {size} of the line"),
    };
    Some(format!("{found}; with {} a run line has {size}", range(sensors, "sensor")))
}

/// What line `line` (from 1) of a run has wrong, under an accepted plan with this header.
pub fn of_run(header: &Row, names: &Names, run: &[u8], line: usize) -> Option<Cause> {
    let size = run_line(header[4] as usize);
    if line > MOST {
        return Some(Cause::new(10, line, "a run has at most 100,000 lines"));
    }
    let rest = run.get(line.checked_sub(1)? * size..)?;
    let bytes = &rest[..size.min(rest.len())];
    if let Some(words) = run_form(bytes, header[4]) {
        return Some(Cause::new(10, line, words));
    }
    let places =
        [0..4, 4..8].into_iter().chain((8..size - 1).step_by(20).map(|start| start..start + 20));
    places.enumerate().find_map(|(column, place)| {
        let name = match column {
            0 => String::from("mask"),
            1 => String::from("fill"),
            _ => format!("sensor {} ({})", column - 2, names.sensors[column - 2]),
        };
        let words = run_column(header, column, number(&bytes[place.clone()]), &name)?;
        let column = Some((column, place, name));
        Some(Cause { column, ..Cause::new(10, line, words) })
    })
}

/// What the number of a run line's column has wrong.
fn run_column(
    header: &Row,
    column: usize,
    value: Result<u64, Malformed>,
    name: &str,
) -> Option<String> {
    let masks = 1u64 << header[1];
    match (column, value) {
        (_, Err(why)) => Some(malformed(name, &why)),
        (0, Ok(mask)) if mask >= masks => {
            let nodes = range(header[1], "node");
            Some(format!("mask is {mask}, with {nodes} a mask is 0 to {}", masks - 1))
        }
        (1, Ok(SILENT)) => Some(format!(
            "fill is {SILENT}, silence, which this program does not have yet; a fill is 0 to 255"
        )),
        (1, Ok(fill)) if fill > 255 => Some(format!("fill is {fill}, a fill is 0 to 255")),
        _ => None,
    }
}

/// The refusal for people: file, line, number and words; the line itself with its column; the rule.
pub fn report(file: &str, refusal: Refusal, cause: Option<&Cause>, line: Option<&[u8]>) -> String {
    let cause = cause.filter(|cause| cause.refusal == refusal);
    let place = match refusal.line {
        0 => String::from(file),
        line => format!("{file}:{line}"),
    };
    let words = cause.map_or(rule(refusal.number), |cause| &cause.words);
    let mut out = format!("{place}: refusal {}: {words}\n", refusal.number);
    let Some(cause) = cause else { return out };
    if let Some(line) = line {
        let line = line.strip_suffix(b"\n").unwrap_or(line);
        let visible = |byte: &u8| if (b' '..=b'~').contains(byte) { *byte as char } else { '?' };
        out += &format!("  | {}\n", line.iter().map(visible).collect::<String>());
        if let Some((column, place, name)) = &cause.column {
            let (blanks, marks) = (" ".repeat(place.start), "^".repeat(place.len()));
            out += &format!("  | {blanks}{marks} column {}", column + 1);
            out += &if name.starts_with("column") {
                String::from("\n")
            } else {
                format!(", {name}\n")
            };
        }
    }
    out + &format!("  rule: {}\n", rule(refusal.number))
}
