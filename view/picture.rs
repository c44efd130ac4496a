//! A run as one SVG picture: the nodes' states, the agreement, and each setpoint with the one of a
//! press without faults behind it; hatched where nothing is promised. No script; light in print, by
//! the reader's setting on a screen.

use std::iter;
use std::ops::Range;

use super::listing::{stretches, Frame, Run, State};
use super::names::Names;
use super::pattern::decimal;
use super::show::{grouped, promise, sizes, summary};

const WIDTH: f64 = 960.0;
const LEFT: f64 = 96.0;
const PLOT: f64 = 840.0;
/// The most columns that a run is drawn in: more frames share them.
const COLUMNS: usize = 840;
const NODE: f64 = 16.0;
const AGREEMENT: f64 = 56.0;
const SETPOINT: f64 = 92.0;
/// Between two panels: the numbers of the upper one, the heading of the lower one.
const GAP: f64 = 42.0;

const STYLE: &str = "
.ground{fill:#fff}
text{font:12px Helvetica,Arial,sans-serif;fill:#1b1f23}
.title{font-size:18px;font-weight:bold}
.head{font-weight:bold}
.small{font-size:11px;fill:#57606a}
.right{text-anchor:end}
.middle{text-anchor:middle}
.grid{stroke:#d8dee4;fill:none}
.axis{stroke:#8c959f;fill:none}
.half{stroke:#8c959f;stroke-dasharray:4 3;fill:none}
.working{fill:#dbe7df}
.recovering{fill:#e8a33d}
.bad{fill:#9c1c1c}
.quiet{stroke:#b4c3d3;stroke-width:5;fill:none;stroke-linejoin:round}
.quiet.area{fill:#b4c3d3}
.line{stroke:#0b4f9e;stroke-width:1.5;fill:none;stroke-linejoin:round}
.line.area{fill:#0b4f9e;fill-opacity:.5;stroke-width:.8;stroke-opacity:.8}
.off{fill:#d1242f}
.beyond{fill:#7a4fb5}
.nan{fill:#7a4fb5;fill-opacity:.22}
.unpromised{fill:url(#hatch);pointer-events:none}
.hatch{stroke:#57606a;stroke-width:1.2;stroke-opacity:.5}
.end{stroke:#1b1f23;stroke-width:2;pointer-events:none}
@media screen and (prefers-color-scheme:dark){
.ground{fill:#0f1419}
text{fill:#e6edf3}
.small{fill:#9aa4af}
.grid{stroke:#2b333c}
.axis,.half{stroke:#6e7781}
.working{fill:#2a4d3c}
.recovering{fill:#c98a2b}
.bad{fill:#ff7b72}
.quiet{stroke:#5b6b7c}
.quiet.area{fill:#5b6b7c}
.line{stroke:#79b8ff}
.line.area{fill:#79b8ff}
.off{fill:#ff7b72}
.beyond,.nan{fill:#c297ff}
.hatch{stroke:#c9d1d9}
.end{stroke:#e6edf3}
}
";

/// Slanting lines, for the frames in which nothing is promised.
const HATCH: &str = "<defs><pattern id=\"hatch\" width=\"8\" height=\"8\" patternUnits=\"userSpaceOnUse\" patternTransform=\"rotate(45)\"><line class=\"hatch\" x1=\"4\" y1=\"0\" x2=\"4\" y2=\"8\"/></pattern></defs>\n";

/// The frames of a run in the columns of the picture.
struct Columns {
    frames: usize,
    count: usize,
}

impl Columns {
    fn frames(&self, column: usize) -> Range<usize> {
        let edge = |column: usize| column * self.frames / self.count;
        edge(column)..edge(column + 1)
    }

    /// The left edge of a column, or the right one of the column before.
    fn x(&self, column: usize) -> f64 {
        LEFT + PLOT * column as f64 / self.count as f64
    }

    /// The middle of a frame.
    fn middle(&self, frame: usize) -> f64 {
        LEFT + PLOT * (frame as f64 + 0.5) / self.frames as f64
    }

    /// The columns with a frame in which a test holds, as stretches.
    fn stretches(&self, test: impl Fn(usize) -> bool) -> Vec<(usize, usize)> {
        stretches(self.count, |column| self.frames(column).any(&test))
    }

    /// Whether each frame has a column of its own.
    fn is_exact(&self) -> bool {
        self.frames == self.count
    }
}

/// Least and greatest of some values, if there are any.
fn ends(values: impl Iterator<Item = f64>) -> Option<(f64, f64)> {
    values.fold(None, |ends, value| {
        Some(
            ends.map_or((value, value), |(low, high): (f64, f64)| {
                (low.min(value), high.max(value))
            }),
        )
    })
}

fn finite(values: &[f64]) -> impl Iterator<Item = f64> + '_ {
    values.iter().copied().filter(|value| value.is_finite())
}

/// The values between which a panel is drawn.
#[derive(Clone, Copy)]
struct Scale {
    low: f64,
    high: f64,
    top: f64,
    height: f64,
}

impl Scale {
    /// From the values without faults; those with faults count as far as they lie within twice that
    /// range on either side, or as far from it as it is from 0, so that one wild value leaves the
    /// others to be seen. Where all without faults are 0 there is nothing to measure them by, and
    /// all count.
    fn of(quiet: &[f64], own: &[f64], top: f64, height: f64) -> Scale {
        let (low, high) = ends(finite(quiet)).or(ends(finite(own))).unwrap_or((0.0, 0.0));
        // By halves, as the whole of a range may be beyond the largest value.
        let reach = match (low, high) == (0.0, 0.0) {
            true => f64::INFINITY,
            false => (4.0 * (high / 2.0 - low / 2.0)).max(low.abs()).max(high.abs()),
        };
        let near = finite(own).filter(|&value| value >= low - reach && value <= high + reach);
        let (low, high) = ends(near.chain([low, high])).unwrap_or((low, high));
        let room = match (high > low, high == 0.0) {
            (true, _) => (high / 2.0 - low / 2.0) * 0.12,
            (false, true) => 1.0,
            (false, false) => high.abs() * 0.05,
        };
        Scale { low: (low - room).max(f64::MIN), high: (high + room).min(f64::MAX), top, height }
    }

    /// The height at which a value of the range stands; what is beyond it, at its edge.
    fn y(&self, value: f64) -> f64 {
        let value = value.clamp(self.low, self.high);
        let range = self.high - self.low;
        let share = match range.is_finite() {
            true => (value - self.low) / range,
            false => (value / 2.0 - self.low / 2.0) / (self.high / 2.0 - self.low / 2.0),
        };
        self.top + self.height * (1.0 - if share.is_finite() { share } else { 0.5 })
    }

    fn has(&self, value: f64) -> bool {
        value >= self.low && value <= self.high
    }

    /// Round numbers within the range, two to six of them; of a range too narrow for any, its low end.
    fn ticks(&self) -> Vec<f64> {
        let rough = self.high / 4.0 - self.low / 4.0;
        let power = 10f64.powf(rough.log10().floor());
        let steps = [1.0, 2.0, 2.5, 5.0, 10.0].map(|digit| digit * power);
        let step = steps.into_iter().find(|&step| step >= rough && step.is_normal());
        let Some(step) = step else { return vec![self.low] };
        let first = (self.low / step).ceil();
        let ticks = (0..8).map(|index| (first + f64::from(index)) * step);
        let mut ticks: Vec<f64> =
            ticks.map(|value| rounded(value, step)).filter(|&value| self.has(value)).collect();
        ticks.dedup();
        ticks
    }
}

/// A multiple of a step, without the last digits that its product has too many.
fn rounded(value: f64, step: f64) -> f64 {
    match value.abs() < step / 2.0 {
        true => 0.0,
        false => {
            let digits = (value.abs() / step).log10().ceil().clamp(1.0, 15.0) as usize + 1;
            format!("{value:.digits$e}").parse().unwrap_or(value)
        }
    }
}

/// A number beside an axis, in its shorter form.
fn label(value: f64) -> String {
    let (plain, exponent) = (decimal(value), format!("{value:e}"));
    if plain.len() > 9 && exponent.len() < plain.len() {
        exponent
    } else {
        plain
    }
}

/// Text for XML: markup escaped, and letters left out that no XML may have.
fn escaped(text: &str) -> String {
    let allowed =
        |letter: &char| !letter.is_control() && !matches!(letter, '\u{fffe}' | '\u{ffff}');
    let text: String = text.chars().filter(allowed).collect();
    text.replace('&', "&amp;").replace('<', "&lt;").replace('>', "&gt;").replace('"', "&quot;")
}

/// At most so many letters of a text.
fn cut(text: &str, most: usize) -> String {
    match text.chars().count() > most {
        true => text.chars().take(most - 1).chain(['\u{2026}']).collect(),
        false => String::from(text),
    }
}

/// A coordinate to a tenth.
fn short(value: f64) -> String {
    let text = format!("{value:.1}");
    text.strip_suffix(".0").map_or(text.clone(), String::from)
}

/// One edge of a curve: heights, and how far each goes.
fn edge(out: &mut String, steps: impl Iterator<Item = (f64, f64)>) {
    let mut steps = steps.map(|(y, x)| (short(y), short(x))).peekable();
    while let Some((y, mut x)) = steps.next() {
        while let Some((_, further)) = steps.next_if(|(next, _)| *next == y) {
            x = further;
        }
        *out += &format!("V{y}H{x}");
    }
}

/// A curve: for each column the least and the greatest value, or None for a gap. Where frames share
/// columns it is the area between the two.
fn path(columns: &Columns, scale: &Scale, values: &[Option<(f64, f64)>]) -> String {
    let mut out = String::new();
    for (first, last) in stretches(values.len(), |column| values[column].is_some()) {
        let y = |column: usize| {
            values[column].map_or((0.0, 0.0), |(low, high)| (scale.y(low), scale.y(high)))
        };
        out += &format!("M{} {}", short(columns.x(first)), short(y(first).1));
        edge(&mut out, (first..=last).map(|column| (y(column).1, columns.x(column + 1))));
        if !columns.is_exact() {
            edge(&mut out, (first..=last).rev().map(|column| (y(column).0, columns.x(column))));
            out.push('Z');
        }
    }
    out
}

struct Picture<'a> {
    run: &'a Run,
    names: &'a Names,
    columns: Columns,
    out: String,
}

impl Picture<'_> {
    /// An element with a class, and its other attributes.
    fn element(&mut self, name: &str, class: &str, attributes: &[(&str, f64)]) {
        let attributes =
            attributes.iter().map(|(name, value)| format!(" {name}=\"{}\"", short(*value)));
        self.out += &format!("<{name} class=\"{class}\"{}/>\n", attributes.collect::<String>());
    }

    /// The rectangle of some columns.
    fn rect(&mut self, class: &str, columns: (usize, usize), top: f64, height: f64) {
        let (from, to) = (self.columns.x(columns.0), self.columns.x(columns.1 + 1));
        let width = to - from;
        self.element(
            "rect",
            class,
            &[("x", from), ("y", top), ("width", width), ("height", height)],
        );
    }

    fn text(&mut self, class: &str, x: f64, y: f64, words: &str) {
        let (x, y) = (short(x), short(y));
        self.out +=
            &format!("<text class=\"{class}\" x=\"{x}\" y=\"{y}\">{}</text>\n", escaped(words));
    }

    fn line(&mut self, class: &str, from: (f64, f64), to: (f64, f64)) {
        self.element("line", class, &[("x1", from.0), ("y1", from.1), ("x2", to.0), ("y2", to.1)]);
    }

    fn path(&mut self, class: &str, d: &str) {
        if !d.is_empty() {
            self.out += &format!("<path class=\"{class}\" d=\"{d}\"/>\n");
        }
    }

    /// The heading of a panel, and a note at its right end.
    fn heading(&mut self, top: f64, words: &str, note: &str) {
        self.text("head", LEFT, top - 8.0, words);
        if !note.is_empty() {
            self.text("small right", LEFT + PLOT, top - 8.0, note);
        }
    }

    /// Frames at which the axis has a number.
    fn frame_ticks(&self) -> Vec<usize> {
        let frames = self.run.frames.len();
        let mut steps = (0..6).flat_map(|power| [1, 2, 5].map(|digit| digit * 10usize.pow(power)));
        let step = steps.find(|step| frames <= step * 16).unwrap_or(frames);
        (0..frames).step_by(step).collect()
    }

    /// The numbers of frames below a panel, and lines up from them.
    fn frames_axis(&mut self, top: f64, height: f64) {
        for frame in self.frame_ticks() {
            let x = self.columns.middle(frame);
            if height > 0.0 {
                self.line("grid", (x, top), (x, top + height));
            }
            self.text("small middle", x, top + height + 13.0, &grouped(frame));
        }
    }

    fn value_axis(&mut self, scale: &Scale, ticks: &[f64]) {
        for &tick in ticks {
            let y = scale.y(tick);
            self.line("grid", (LEFT, y), (LEFT + PLOT, y));
            self.text("small right", LEFT - 8.0, y + 4.0, &label(tick));
        }
        self.line("axis", (LEFT, scale.top), (LEFT, scale.top + scale.height));
    }

    /// The frames of a panel in which nothing is promised, hatched, with a line where they begin.
    fn unpromised(&mut self, top: f64, height: f64) {
        let run = self.run;
        for columns in self.columns.stretches(|frame| !run.is_promised(frame)) {
            self.rect("unpromised", columns, top, height);
            let x = self.columns.x(columns.0);
            self.line("end", (x, top), (x, top + height));
        }
    }

    /// One row a node: what it is in each frame.
    fn nodes(&mut self, top: f64) {
        let step = NODE + 3.0;
        let count = self.run.nodes();
        let note = match self.columns.is_exact() {
            true => String::new(),
            false => {
                let frames = self.columns.frames.div_ceil(self.columns.count);
                format!("up to {frames} frames share a column; in it a node is bad if it is in one of them")
            }
        };
        self.heading(top, "nodes", &note);
        for node in 0..count {
            let y = top + step * node as f64;
            self.text("right", LEFT - 8.0, y + NODE - 4.0, &format!("node {node}"));
            self.rect("working", (0, self.columns.count - 1), y, NODE);
            let run = self.run;
            let recovering = |frame: usize| matches!(run.states[frame][node], State::Recovering(_));
            let part = |(first, last): (usize, usize)| {
                let (from, to) = (short(self.columns.x(first)), short(self.columns.x(last + 1)));
                format!("M{from} {}H{to}v{NODE}H{from}Z", short(y))
            };
            let d: String = self.columns.stretches(recovering).into_iter().map(part).collect();
            self.path("recovering", &d);
            self.faults(node, y);
        }
        let height = step * count as f64 - 3.0;
        self.unpromised(top, height);
        self.frames_axis(top + height, 0.0);
    }

    /// Each fault of a node is one mark, which tells its frames; where frames share columns a mark
    /// stands for the faults in its columns.
    fn faults(&mut self, node: usize, y: f64) {
        let run = self.run;
        let mut knocks = run.faults.iter().filter(|fault| fault.node == node).peekable();
        for (first, last) in self.columns.stretches(|frame| run.states[frame][node] == State::Bad) {
            let end = self.columns.frames(last).end;
            let faults: Vec<_> =
                iter::from_fn(|| knocks.next_if(|fault| fault.first < end)).collect();
            let (Some(begin), Some(last_fault)) = (faults.first(), faults.last()) else { continue };
            let (begin, end) = (begin.first, last_fault.last);
            let words = match (faults.len(), begin == end) {
                (1, true) => format!("node {node} bad in frame {begin}"),
                (1, false) => format!("node {node} bad in frames {begin} to {end}"),
                (count, _) => format!("node {node}: {count} faults from frame {begin} to {end}"),
            };
            let (from, to) = (self.columns.x(first), self.columns.x(last + 1));
            self.out += &format!(
                "<rect class=\"bad\" data-faults=\"{}\" x=\"{}\" y=\"{}\" width=\"{}\" height=\"{NODE}\"><title>{words}</title></rect>\n",
                faults.len(),
                short(from),
                short(y),
                short(to - from)
            );
        }
    }

    fn curve(&mut self, class: &str, scale: &Scale, values: &[f64]) {
        let of = |column: usize| ends(finite(&values[self.columns.frames(column)]));
        let ends: Vec<_> = (0..self.columns.count).map(of).collect();
        let area = if self.columns.is_exact() { "" } else { " area" };
        let d = path(&self.columns, scale, &ends);
        self.path(&format!("{class}{area}"), &d);
    }

    fn agreement(&mut self, top: f64) {
        let nodes = self.run.nodes();
        let scale = Scale { low: 0.0, high: nodes as f64 + 0.3, top, height: AGREEMENT };
        self.heading(top, "agreement", "dashed: half of the nodes");
        self.frames_axis(top, AGREEMENT);
        let mut ticks = vec![0.0, (nodes / 2 + 1) as f64, nodes as f64];
        ticks.dedup();
        self.value_axis(&scale, &ticks);
        let half = scale.y(nodes as f64 / 2.0);
        self.line("half", (LEFT, half), (LEFT + PLOT, half));
        self.unpromised(top, AGREEMENT);
        let values: Vec<f64> = self.run.frames.iter().map(|frame| frame.agreement as f64).collect();
        self.curve("line", &scale, &values);
    }

    fn setpoint(&mut self, top: f64, actuator: usize) {
        let run = self.run;
        let value = |frame: &Frame| f64::from_bits(frame.setpoints[actuator]);
        let own: Vec<f64> = run.frames.iter().map(value).collect();
        let quiet: Vec<f64> = run.without_faults.iter().map(value).collect();
        let scale = Scale::of(&quiet, &own, top, SETPOINT);
        let off = (0..own.len()).filter(|&frame| run.differs(frame, actuator)).count();
        let note = match off {
            0 => String::new(),
            _ => format!(
                "not as without faults in {} of {} frames",
                grouped(off),
                grouped(own.len())
            ),
        };
        self.heading(top, &format!("setpoint {}", cut(&self.names.actuators[actuator], 60)), &note);
        self.frames_axis(top, SETPOINT);
        self.value_axis(&scale, &scale.ticks());
        self.unpromised(top, SETPOINT);
        self.curve("quiet", &scale, &quiet);
        self.curve("line", &scale, &own);
        let marks: [(&str, &dyn Fn(usize) -> bool, f64, f64); 4] = [
            ("off", &|frame| run.differs(frame, actuator), top - 4.0, 4.0),
            ("beyond", &|frame| own[frame] > scale.high, top, 4.0),
            ("beyond", &|frame| own[frame] < scale.low, top + SETPOINT - 4.0, 4.0),
            ("nan", &|frame| own[frame].is_nan(), top, SETPOINT),
        ];
        for (class, test, top, height) in marks {
            for columns in self.columns.stretches(test) {
                self.rect(class, columns, top, height);
            }
        }
    }

    /// A sample of an area, for the words behind it.
    fn sample(&mut self, class: &str, x: f64, y: f64) {
        self.path(class, &format!("M{} {}h22v10h-22Z", short(x), short(y - 9.0)));
    }

    /// How far the promise goes, with a sample of the hatching where it ends.
    fn promise(&mut self, y: f64) {
        let mut x = LEFT;
        if self.run.promise_end.is_some() {
            self.out += HATCH;
            self.sample("unpromised", x, y);
            self.line("end", (x, y - 9.0), (x, y + 1.0));
            x += 28.0;
        }
        self.text("", x, y, &promise(self.run));
    }

    fn legend(&mut self, y: f64) {
        let items = [
            ("working", "working"),
            ("recovering", "recovering"),
            ("bad", "bad"),
            ("line", "setpoint"),
            ("quiet", "without faults"),
            ("off", "differs from it"),
            ("beyond", "beyond the axis"),
            ("nan", "no number"),
        ];
        let mut x = LEFT;
        for (index, (class, words)) in items.into_iter().enumerate() {
            if index > 4 && !self.out.contains(&format!("<rect class=\"{class}\"")) {
                continue;
            }
            match class {
                "line" | "quiet" => self.line(class, (x, y - 4.0), (x + 22.0, y - 4.0)),
                _ => self.sample(class, x, y),
            }
            self.text("", x + 28.0, y, words);
            x += 28.0 + 6.0 * words.len() as f64 + 16.0;
        }
    }
}

/// The picture of a run; `name` is its title where the plan has none.
pub fn svg(run: &Run, names: &Names, name: &str) -> String {
    let frames = run.frames.len();
    let columns = Columns { frames, count: frames.min(COLUMNS) };
    let mut picture = Picture { run, names, columns, out: String::new() };
    let mut y = 132.0;
    let about = format!("{}; {}", sizes(&run.header, run.period), summary(run));
    let mut described = about.clone();
    if frames > 0 {
        described += &format!("; {}", promise(run));
        picture.promise(72.0);
        picture.nodes(y);
        y += (NODE + 3.0) * run.nodes() as f64 - 3.0 + GAP;
        picture.agreement(y);
        y += AGREEMENT + GAP;
        for actuator in 0..run.actuators() {
            picture.setpoint(y, actuator);
            y += SETPOINT + GAP;
        }
        picture.text("small middle", LEFT + PLOT / 2.0, y - GAP + 26.0, "frame");
    }
    picture.legend(96.0);
    let title = escaped(&cut(names.title.as_deref().unwrap_or(name), 90));
    let (about, described) = (escaped(&about), escaped(&described));
    let height = short(y);
    format!(
        "<svg xmlns=\"http://www.w3.org/2000/svg\" role=\"img\" width=\"{WIDTH}\" height=\"{height}\" viewBox=\"0 0 {WIDTH} {height}\">\n\
         <title>{title}</title>\n<desc>{described}</desc>\n<style>{STYLE}</style>\n\
         <rect class=\"ground\" width=\"{WIDTH}\" height=\"{height}\"/>\n\
         <text class=\"title\" x=\"{LEFT}\" y=\"30\">{title}</text>\n<text x=\"{LEFT}\" y=\"52\">{about}</text>\n{}</svg>\n",
        picture.out
    )
}
