//! Plans by name: the form that people write, read to the numbers of a plan text and written from
//! them. docs/NAMED.md has the grammar. Only what cannot be written as a plan text is an error
//! here; everything else is for the proved program to accept or refuse.

use std::collections::BTreeMap;

use super::names::Names;
use super::pattern;
use super::text::{self, is_task, Row};
use super::words::{declare, find, is_name, is_number, mistake, small, value, words, Mistake};

/// A word and its line.
type Place = (usize, String);

/// Where the six numbers of a plan line come from in the named plan.
pub type Source = [Place; 6];

/// A named plan, read.
#[derive(Debug)]
pub struct Named {
    pub names: Names,
    pub rows: Vec<Row>,
    /// For each row.
    pub sources: Vec<Source>,
}

/// The words that a line other than a frame's begins with.
pub const KEYWORDS: [&str; 5] = ["nodes", "frames", "sensors", "cell", "actuator"];

/// How many frames, and how many sensors, a plan has.
const UP_TO_16: &str = "1 to 16";

/// What has been read so far of a named plan.
#[derive(Default)]
struct Reader<'a> {
    names: Names,
    nodes: Option<(usize, &'a str)>,
    frames: Option<(usize, &'a str)>,
    sensors: Option<(usize, &'a str)>,
    /// The line, the name, the initial pattern and its word.
    cells: Vec<(usize, &'a str, u64, &'a str)>,
    /// The line, the name, the cell.
    actuators: Vec<(usize, &'a str, &'a str)>,
    /// Tasks and votes: the line, the frame, the words behind the colon.
    steps: Vec<(usize, &'a str, Vec<&'a str>)>,
}

fn source(line: usize, words: [&str; 6]) -> Source {
    words.map(|word| (line, String::from(word)))
}

/// Where a count is told, once.
fn once<'a>(
    slot: &mut Option<(usize, &'a str)>,
    line: usize,
    word: &'a str,
    what: &str,
) -> Result<(), Mistake> {
    match slot.replace((line, word)) {
        Some((before, _)) => mistake(line, what, format!("line {before} has the {what} already")),
        None => Ok(()),
    }
}

impl<'a> Reader<'a> {
    /// `frames 2` or `frames read print`
    fn counted(&mut self, line: usize, what: &'a str, rest: &[&'a str]) -> Result<(), Mistake> {
        let Some(&first) = rest.first() else {
            return mistake(line, what, format!("how many {what}, or their names, have to follow"));
        };
        let (list, slot, letter) = match what {
            "frames" => (&mut self.names.frames, &mut self.frames, ""),
            _ => (&mut self.names.sensors, &mut self.sensors, "s"),
        };
        once(slot, line, first, what)?;
        match rest {
            [count] if !is_name(count) => {
                let count = small(line, count, &format!("the number of {what}"), UP_TO_16)?;
                list.extend((0..count).map(|number| format!("{letter}{number}")));
                Ok(())
            }
            names => declare(list, line, names, what.trim_end_matches('s')),
        }
    }

    /// `cell a b c = 1`
    fn cell(&mut self, line: usize, rest: &[&'a str]) -> Result<(), Mistake> {
        let (names, word) = match rest {
            [names @ .., "=", word] => (names, *word),
            names => (names, "0"),
        };
        if names.is_empty() || names.contains(&"=") || word == "=" {
            return mistake(line, "cell", "the form is: cell NAME .. = VALUE, or without = VALUE");
        }
        let initial = value(line, word)?;
        declare(&mut self.names.cells, line, names, "cell")?;
        self.cells.extend(names.iter().map(|name| (line, *name, initial, word)));
        Ok(())
    }

    fn line(&mut self, line: usize, words: Vec<&'a str>) -> Result<(), Mistake> {
        match words[..] {
            [] => Ok(()),
            [frame, ":", ..] => {
                self.steps.push((line, frame, words[2..].to_vec()));
                Ok(())
            }
            ["nodes", count] => once(&mut self.nodes, line, count, "nodes"),
            ["nodes", ..] => mistake(line, "nodes", "the form is: nodes NUMBER"),
            [what @ ("frames" | "sensors"), ref rest @ ..] => self.counted(line, what, rest),
            ["cell", ref rest @ ..] => self.cell(line, rest),
            ["actuator", name, "=", cell] => {
                declare(&mut self.names.actuators, line, &[name], "actuator")?;
                self.actuators.push((line, name, cell));
                Ok(())
            }
            ["actuator", ..] => mistake(line, "actuator", "the form is: actuator NAME = CELL"),
            [first, ..] => {
                let says =
                    format!("a line begins with {}, or a frame and a colon", KEYWORDS.join(", "));
                mistake(line, first, says)
            }
        }
    }

    fn frame(&self, line: usize, word: &str) -> Result<u64, Mistake> {
        match is_number(word) {
            true => small(line, word, "a frame's number", "from 0 on"),
            false => find(&self.names.frames, line, word, "frame"),
        }
    }

    /// The row of `frame: target = sum a b` and its words.
    fn task(&self, line: usize, frame: &str, words: &[&str]) -> Result<(Row, Source), Mistake> {
        let (target, rest) = (words[0], &words[2..]);
        let cell = |word: &str| find(&self.names.cells, line, word, "cell");
        let sensor = |word: &str| find(&self.names.sensors, line, word, "sensor");
        let number = |word: &str| value(line, word);
        let (kind, numbers, meant) = match *rest {
            ["take", a] => (text::TAKE, [sensor(a)?, 0, 0], [a, "", ""]),
            ["sum", a, b] => (text::SUM, [cell(a)?, cell(b)?, 0], [a, b, ""]),
            ["diff", a, b] => (text::DIFF, [cell(a)?, cell(b)?, 0], [a, b, ""]),
            ["scale", a, x] => (text::SCALE, [cell(a)?, number(x)?, 0], [a, x, ""]),
            ["limit", a, x, y] => (text::LIMIT, [cell(a)?, number(x)?, number(y)?], [a, x, y]),
            ["wind", a, "rate", x, "cap", y] => {
                (text::WIND, [cell(a)?, number(x)?, number(y)?], [a, x, y])
            }
            ["cam", a] => (text::CAM, [cell(a)?, 0, 0], [a, "", ""]),
            _ => return Err(task_form(line, rest)),
        };
        let [fourth, fifth, sixth] = numbers;
        let row = [kind, self.frame(line, frame)?, cell(target)?, fourth, fifth, sixth];
        Ok((row, source(line, [rest[0], frame, target, meant[0], meant[1], meant[2]])))
    }

    /// The rows of `frame: vote a b`, which are not among those before, and their lines.
    fn votes(
        &self,
        line: usize,
        frame: &str,
        cells: &[&str],
        votes: &mut BTreeMap<Row, Source>,
    ) -> Result<(), Mistake> {
        for word in cells {
            let cell = find(&self.names.cells, line, word, "cell")?;
            let row = [text::VOTE, self.frame(line, frame)?, cell, 0, 0, 0];
            let words = source(line, ["vote", frame, word, "", "", ""]);
            if let Some(before) = votes.insert(row, words) {
                return mistake(line, word, format!("line {} has this vote already", before[0].0));
            }
        }
        Ok(())
    }

    /// The rows of the tasks, in frames not falling and otherwise as they stand, and those of the
    /// votes, rising.
    fn steps(&self) -> Result<Vec<(Row, Source)>, Mistake> {
        let (mut tasks, mut votes) = (Vec::new(), BTreeMap::new());
        for (line, frame, rest) in &self.steps {
            match rest[..] {
                [_, "=", ..] => tasks.push(self.task(*line, frame, rest)?),
                ["vote", ref cells @ ..] if !cells.is_empty() => {
                    self.votes(*line, frame, cells, &mut votes)?;
                }
                _ => {
                    let word = rest.first().unwrap_or(frame);
                    return mistake(
                        *line,
                        word,
                        "behind a frame stands CELL = TASK, or vote CELL ..",
                    );
                }
            }
        }
        tasks.sort_by_key(|(row, _)| row[1]);
        tasks.extend(votes);
        Ok(tasks)
    }

    /// The header's row: counts, and where each was told; cells and actuators by their last.
    fn header(&self) -> Result<(Row, Source), Mistake> {
        let keyword = |frame: &str| {
            KEYWORDS.contains(&frame) && !self.names.frames.iter().any(|name| name == frame)
        };
        if let Some((line, word, _)) = self.steps.iter().find(|(_, frame, _)| keyword(frame)) {
            return mistake(
                *line,
                word,
                "no colon stands behind this word, unless a frame is called so",
            );
        }
        let last_cell = self.cells.last().map(|cell| (cell.0, cell.1));
        let last_actuator = self.actuators.last().map(|actuator| (actuator.0, actuator.1));
        let told = [
            (self.nodes, "nodes", "nodes 3"),
            (self.frames, "frames", "frames 2"),
            (last_cell, "cells", "cell speed"),
            (self.sensors, "sensors", "sensors speed"),
            (last_actuator, "actuators", "actuator drive = speed"),
        ];
        let mut places = vec![(0, String::new())];
        for (place, what, example) in told {
            let Some((line, word)) = place else {
                return mistake(
                    0,
                    "",
                    format!("the {what} are missing; write for example: {example}"),
                );
            };
            places.push((line, String::from(word)));
        }
        let nodes = small(places[1].0, &places[1].1, "the number of nodes", "1 to 7")?;
        let lists =
            [&self.names.frames, &self.names.cells, &self.names.sensors, &self.names.actuators];
        let [f, c, s, a] = lists.map(|names| names.len() as u64);
        let source = places.try_into().expect("six places");
        Ok(([text::HEADER, nodes, f, c, s, a], source))
    }
}

fn task_form(line: usize, rest: &[&str]) -> Mistake {
    let says = match rest.first() {
        Some(&"take") => "the form is: take SENSOR",
        Some(&"sum") => "the form is: sum CELL CELL",
        Some(&"diff") => "the form is: diff CELL CELL",
        Some(&"scale") => "the form is: scale CELL FACTOR",
        Some(&"limit") => "the form is: limit CELL LOW HIGH",
        Some(&"wind") => "the form is: wind CELL rate RATE cap CAP",
        Some(&"cam") => "the form is: cam CELL",
        _ => "a task is take, sum, diff, scale, limit, wind or cam",
    };
    Mistake { line, word: rest.first().copied().unwrap_or("=").into(), says: says.into() }
}

/// The comment in the first line.
fn title(file: &str) -> Option<String> {
    let title = file.lines().next()?.strip_prefix('#')?.trim();
    (!title.is_empty()).then(|| String::from(title))
}

pub fn read(file: &str) -> Result<Named, Mistake> {
    let mut reader = Reader::default();
    for (index, line) in file.lines().enumerate() {
        reader.line(index + 1, words(line))?;
    }
    reader.names.title = title(file);
    let mut all = vec![reader.header()?];
    for (number, &(line, name, initial, word)) in reader.cells.iter().enumerate() {
        let row = [text::CELL, number as u64, 0, 0, initial, 0];
        all.push((row, source(line, ["cell", name, "", "", word, ""])));
    }
    all.extend(reader.steps()?);
    for (number, &(line, name, cell)) in reader.actuators.iter().enumerate() {
        let index = find(&reader.names.cells, line, cell, "cell")?;
        let row = [text::ACTUATOR, number as u64, index, 0, 0, 0];
        all.push((row, source(line, ["actuator", name, cell, "", "", ""])));
    }
    let (rows, sources) = all.into_iter().unzip();
    Ok(Named { names: reader.names, rows, sources })
}

/// Whether a file begins as a named plan does: with a comment, a keyword or a frame's colon.
pub fn begins(file: &str) -> bool {
    let mut lines = file.lines().filter(|line| !line.trim().is_empty());
    lines.next().is_some_and(|line| {
        let first = words(line);
        line.trim_start().starts_with('#')
            || first.first().is_some_and(|word| KEYWORDS.contains(word))
            || (first.get(1) == Some(&":") && is_name(first[0]))
    })
}

/// How many names stand in one line.
const NAMES_A_LINE: usize = 8;

fn task_text(row: &Row, names: &Names) -> String {
    let [kind, _, target, fourth, fifth, sixth] = *row;
    let cell = |index: u64| names.cells[index as usize].as_str();
    let number = pattern::written;
    let rest = match kind {
        text::TAKE => names.sensors[fourth as usize].clone(),
        text::SUM | text::DIFF => format!("{} {}", cell(fourth), cell(fifth)),
        text::SCALE => format!("{} {}", cell(fourth), number(fifth)),
        text::LIMIT => format!("{} {} {}", cell(fourth), number(fifth), number(sixth)),
        text::WIND => format!("{} rate {} cap {}", cell(fourth), number(fifth), number(sixth)),
        _ => String::from(cell(fourth)),
    };
    format!("{} = {} {rest}", cell(target), text::task_word(kind))
}

/// Lines of up to eight names: rows one after another that are alike in one number, the name of
/// each row's cell by another.
fn name_lines(
    rows: &[&Row],
    alike: usize,
    cell: usize,
    names: &Names,
    line: impl Fn(&Row, &str) -> String,
) -> String {
    let groups = rows.chunk_by(|one, next| one[alike] == next[alike]);
    let parts = groups.flat_map(|group| group.chunks(NAMES_A_LINE));
    let names = |part: &[&Row]| {
        let list = part.iter().map(|row| names.cells[row[cell] as usize].as_str());
        list.collect::<Vec<_>>().join(" ")
    };
    parts.map(|part| line(part[0], &names(part))).collect()
}

/// The named form of the rows of an accepted plan.
pub fn write(rows: &[Row], names: &Names) -> String {
    let of =
        |test: fn(u64) -> bool| rows[1..].iter().filter(|row| test(row[0])).collect::<Vec<_>>();
    let frame = |row: &Row| names.frames[row[1] as usize].as_str();
    let title = names.title.as_ref().map_or(String::new(), |title| format!("# {title}\n\n"));
    let frames = match names.frames_named() {
        true => names.frames.join(" "),
        false => names.frames.len().to_string(),
    };
    let head =
        format!("nodes {}\nframes {frames}\nsensors {}\n", rows[0][1], names.sensors.join(" "));
    let cells = name_lines(&of(|kind| kind == text::CELL), 4, 1, names, |row, list| match row[4] {
        0 => format!("cell {list}\n"),
        initial => format!("cell {list} = {}\n", pattern::written(initial)),
    });
    let task = |row: &&Row| format!("{}: {}\n", frame(row), task_text(row, names));
    let tasks: String = of(is_task).iter().map(task).collect();
    let votes = name_lines(&of(|kind| kind == text::VOTE), 1, 2, names, |row, list| {
        format!("{}: vote {list}\n", frame(row))
    });
    let actuator = |row: &&Row| {
        let (name, cell) = (&names.actuators[row[1] as usize], &names.cells[row[2] as usize]);
        format!("actuator {name} = {cell}\n")
    };
    let actuators: String = of(|kind| kind == text::ACTUATOR).iter().map(actuator).collect();
    let parts = [head, cells, tasks, votes, actuators];
    title + &parts.into_iter().filter(|part| !part.is_empty()).collect::<Vec<_>>().join("\n")
}
