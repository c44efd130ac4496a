//! Runs: their texts, and the form that people write. docs/NAMED.md has the grammar.

use std::cmp::Reverse;
use std::collections::BTreeMap;

use super::cause::run_line;
use super::names::Names;
use super::pattern;
use super::text::{number, push, Row};
use super::words::{find, is_number, mistake, small, value, words, Mistake};

/// "10: .. or line 100,001"
pub const MOST: usize = 100_000;

/// The fill that stands for silence.
pub const SILENT: u64 = 256;

/// The numbers of a run line: mask, fill, sensors.
pub type Line = Vec<u64>;

/// The lines of a run text from its beginning, as many as are whole.
pub fn lines(run: &[u8], sensors: usize) -> Vec<Line> {
    let line = |bytes: &[u8]| -> Option<Line> {
        let (front, rest) = bytes[..bytes.len() - 1].split_at(8);
        let columns = front.chunks(4).chain(rest.chunks(20));
        columns.map(|column| number(column).ok()).collect()
    };
    run.chunks_exact(run_line(sensors)).map_while(line).collect()
}

pub fn text(lines: &[Line]) -> Vec<u8> {
    let mut out = Vec::new();
    for line in lines {
        push(&mut out, line[0], 4);
        push(&mut out, line[1], 4);
        line[2..].iter().for_each(|&pattern| push(&mut out, pattern, 20));
        out.push(b'\n');
    }
    out
}

/// The first lines of a run text with nobody bad.
pub fn without_faults(run: &[u8], sensors: usize, lines: usize) -> Vec<u8> {
    let size = run_line(sensors);
    let mut out = run[..lines * size].to_vec();
    out.chunks_exact_mut(size).for_each(|line| line[..4].copy_from_slice(b"   0"));
    out
}

/// Where a line of a run stands in the named run, and where its fill was told.
#[derive(Clone, Debug)]
pub struct Source {
    pub line: usize,
    pub fill: (usize, String),
}

/// A named run, read.
#[derive(Debug, Default)]
pub struct NamedRun {
    pub lines: Vec<Line>,
    /// For each line.
    pub sources: Vec<Source>,
}

/// A fill with its place.
type Fill = (u64, (usize, String));

/// The words behind the values of a frame.
const BEHIND: [&str; 4] = ["bad", "fill", "silent", "times"];

struct Reader<'a> {
    names: &'a Names,
    nodes: u64,
    /// Which sensor each value of a line is of.
    order: Vec<usize>,
    fill: Fill,
    run: NamedRun,
}

/// The words up to the next of those that stand behind the values.
fn upto<'w, 'l>(words: &'l [&'w str]) -> (&'l [&'w str], &'l [&'w str]) {
    let end = words.iter().position(|word| BEHIND.contains(word)).unwrap_or(words.len());
    words.split_at(end)
}

/// `fill 7` or `silent`, if it stands there, and the words behind it.
fn fill<'w, 'l>(
    line: usize,
    words: &'l [&'w str],
) -> Result<(Option<Fill>, &'l [&'w str]), Mistake> {
    let told = |fill: u64, word: &str| Some((fill, (line, String::from(word))));
    match *words {
        ["silent", ref rest @ ..] => Ok((told(SILENT, "silent"), rest)),
        ["fill", word, ref rest @ ..] => {
            Ok((told(small(line, word, "a fill", "0 to 255")?, word), rest))
        }
        ["fill"] => mistake(line, "fill", "a number from 0 to 255 has to follow"),
        _ => Ok((None, words)),
    }
}

/// `times 5`, if it stands there, and the words behind it.
fn times<'w, 'l>(line: usize, words: &'l [&'w str]) -> Result<(usize, &'l [&'w str]), Mistake> {
    let says = "how many frames are alike is a whole number, 1 to 100000";
    match *words {
        ["times", word, ref rest @ ..] => match word.parse() {
            Ok(count) if is_number(word) && (1..=MOST).contains(&count) => Ok((count, rest)),
            _ => mistake(line, word, says),
        },
        ["times"] => mistake(line, "times", says),
        _ => Ok((1, words)),
    }
}

impl Reader<'_> {
    /// `bad 0 4`, if it stands there, and the words behind it.
    fn mask<'w, 'l>(
        &self,
        line: usize,
        words: &'l [&'w str],
    ) -> Result<(u64, &'l [&'w str]), Mistake> {
        let ["bad", ref rest @ ..] = *words else { return Ok((0, words)) };
        let (nodes, rest) = upto(rest);
        if nodes.is_empty() {
            return mistake(line, "bad", "the numbers of the bad nodes have to follow");
        }
        let limits = match self.nodes {
            1 => String::from("0 alone"),
            nodes => format!("0 to {}", nodes - 1),
        };
        let mut mask = 0;
        for word in nodes {
            let node = small(line, word, "a node", &limits)?;
            if node >= self.nodes {
                return mistake(
                    line,
                    word,
                    format!("the plan has no such node; its nodes are {limits}"),
                );
            }
            if mask >> node & 1 == 1 {
                return mistake(line, word, "this node stands there already");
            }
            mask |= 1 << node;
        }
        Ok((mask, rest))
    }

    fn frame(&mut self, line: usize, words: &[&str]) -> Result<(), Mistake> {
        let (values, rest) = upto(words);
        let mut patterns = vec![0; self.order.len()];
        for (index, word) in values.iter().enumerate() {
            let pattern = value(line, word)?;
            match self.order.get(index) {
                Some(&sensor) => patterns[sensor] = pattern,
                None => return mistake(line, word, self.count(values.len())),
            }
        }
        if values.len() < self.order.len() {
            let word = rest.first().or(values.last()).unwrap_or(&"");
            return mistake(line, word, self.count(values.len()));
        }
        let (mask, rest) = self.mask(line, rest)?;
        let (told, rest) = fill(line, rest)?;
        let (times, rest) = times(line, rest)?;
        if let Some(word) = rest.first() {
            let says = "behind the values stand, in this order: bad NODES, fill NUMBER or silent, times COUNT";
            return mistake(line, word, says);
        }
        if self.run.lines.len() + times > MOST {
            return mistake(line, words[0], "a run has at most 100,000 frames");
        }
        let (fill, place) = told.unwrap_or_else(|| self.fill.clone());
        let numbers: Line = [mask, fill].into_iter().chain(patterns).collect();
        self.run.lines.extend(std::iter::repeat_n(numbers, times));
        self.run.sources.extend(std::iter::repeat_n(Source { line, fill: place }, times));
        Ok(())
    }

    fn count(&self, given: usize) -> String {
        let plural = |count: usize| if count == 1 { "" } else { "s" };
        let sensors = self.order.len();
        format!(
            "{given} value{} in this line, and the plan has {sensors} sensor{}",
            plural(given),
            plural(sensors)
        )
    }

    /// `sensors speed cyan`: the order of the values from here on.
    fn sensors(&mut self, line: usize, words: &[&str]) -> Result<(), Mistake> {
        let mut order = Vec::new();
        for word in words {
            let sensor = find(&self.names.sensors, line, word, "sensor")? as usize;
            if order.contains(&sensor) {
                return mistake(line, word, "this sensor stands there already");
            }
            order.push(sensor);
        }
        if let Some(left) = (0..self.names.sensors.len()).find(|sensor| !order.contains(sensor)) {
            return mistake(line, "sensors", format!("'{}' is missing", self.names.sensors[left]));
        }
        self.order = order;
        Ok(())
    }

    fn line(&mut self, line: usize, words: &[&str]) -> Result<(), Mistake> {
        match words {
            [] => Ok(()),
            ["sensors", names @ ..] => self.sensors(line, names),
            ["fill" | "silent", ..] => match fill(line, words)? {
                (Some(told), []) => {
                    self.fill = told;
                    Ok(())
                }
                (_, rest) => mistake(line, rest[0], "nothing more stands in this line"),
            },
            ["bad" | "times", ..] => mistake(line, words[0], "the sensors' values come first"),
            _ => self.frame(line, words),
        }
    }
}

pub fn read(file: &str, header: &Row, names: &Names) -> Result<NamedRun, Mistake> {
    let mut reader = Reader {
        names,
        nodes: header[1],
        order: (0..names.sensors.len()).collect(),
        fill: (0, (0, String::new())),
        run: NamedRun::default(),
    };
    for (index, line) in file.lines().enumerate() {
        reader.line(index + 1, &words(line))?;
    }
    Ok(reader.run)
}

/// The nodes of a mask.
pub fn nodes(mask: u64) -> String {
    let nodes = (0..u64::BITS).filter(|node| mask >> node & 1 == 1);
    nodes.map(|node| node.to_string()).collect::<Vec<_>>().join(" ")
}

/// `fill 7` or `silent`
fn fill_text(fill: u64) -> String {
    match fill {
        SILENT => String::from("silent"),
        fill => format!("fill {fill}"),
    }
}

/// The fill that most lines have, of several the least.
fn usual_fill(lines: &[Line]) -> u64 {
    let mut counts = BTreeMap::new();
    lines.iter().for_each(|line| *counts.entry(line[1]).or_insert(0) += 1);
    counts
        .into_iter()
        .max_by_key(|&(fill, count)| (count, Reverse(fill)))
        .map_or(0, |(fill, _)| fill)
}

/// The named form of the lines of a run.
pub fn write(lines: &[Line], names: &Names) -> String {
    let usual = usual_fill(lines);
    let values =
        |line: &Line| line[2..].iter().map(|&value| pattern::written(value)).collect::<Vec<_>>();
    let mut widths: Vec<usize> = names.sensors.iter().map(|name| name.chars().count()).collect();
    let alike: Vec<&[Line]> = lines.chunk_by(|one, next| one == next).collect();
    for lines in &alike {
        let wider = widths.iter_mut().zip(values(&lines[0]));
        wider.for_each(|(width, value)| *width = value.len().max(*width));
    }
    let row = |words: &[String]| {
        let padded = words.iter().zip(&widths).map(|(word, &width)| format!("{word:>width$}"));
        padded.collect::<Vec<_>>().join("  ")
    };
    let mut out = format!("{}\nsensors  {}\n", fill_text(usual), row(&names.sensors));
    for lines in alike {
        let line = &lines[0];
        out += &format!("         {}", row(&values(line)));
        if line[0] != 0 {
            out += &format!("  bad {}", nodes(line[0]));
        }
        if line[1] != usual {
            out += &format!("  {}", fill_text(line[1]));
        }
        if lines.len() > 1 {
            out += &format!("  times {}", lines.len());
        }
        out.push('\n');
    }
    out
}
