//! `picture`: well-formed XML without scripts; as many marks as the run has faults; curves, marks and
//! numbers of axes read back from it as a person does, and held to the listing; below 2 MB.

use std::collections::BTreeSet;
use std::fs;

use super::cases::case;
use super::random::Random;
use super::view::listing::{Run, State};
use super::view::names::Names;
use super::view::{picture, runs};
use super::{each, promise, same, tables, Tested, Tree};

/// The layout, told once more so that the picture is read by itself: where the panels begin and how
/// wide they are, and how many columns share a long run's frames.
const LEFT: f64 = 96.0;
const WIDTH: f64 = 840.0;
const COLUMNS: usize = 840;

/// An element: its name, its attributes, the text that follows it.
struct Element<'a> {
    name: &'a str,
    attributes: Vec<(&'a str, &'a str)>,
    text: &'a str,
}

impl Element<'_> {
    fn get(&self, name: &str) -> &str {
        self.attributes.iter().find(|(own, _)| *own == name).map_or("", |(_, value)| value)
    }

    fn number(&self, name: &str) -> f64 {
        self.get(name).parse().unwrap_or(f64::NAN)
    }

    fn is(&self, name: &str, class: &str) -> bool {
        self.name == name && self.get("class") == class
    }
}

/// The elements of a document: tags closed in order, attributes quoted and each once, no bare `<`,
/// `>` or `&` in text, one root.
fn elements(svg: &str) -> Result<Vec<Element<'_>>, String> {
    let fail =
        |what: &str, at: &str| Err(format!("{what}: {}", at.chars().take(80).collect::<String>()));
    let (mut open, mut found, mut roots): (Vec<&str>, Vec<Element>, usize) =
        (Vec::new(), Vec::new(), 0);
    let mut rest = svg;
    while !rest.is_empty() {
        let Some(tag) = rest.strip_prefix('<') else {
            let (text, after) = rest.split_at(rest.find('<').unwrap_or(rest.len()));
            entities(text)?;
            if text.contains('>') || (open.is_empty() && !text.trim().is_empty()) {
                return fail("text at no place", rest);
            }
            found
                .last_mut()
                .into_iter()
                .filter(|last| last.text.is_empty())
                .for_each(|last| last.text = text);
            rest = after;
            continue;
        };
        let Some((inside, after)) = tag.split_once('>') else {
            return fail("a tag without end", rest);
        };
        rest = after;
        if let Some(name) = inside.strip_prefix('/') {
            if open.pop() != Some(name) {
                return fail("a tag closed that is not open", inside);
            }
            continue;
        }
        let (inside, empty) =
            inside.strip_suffix('/').map_or((inside, false), |inside| (inside, true));
        let (name, attributes) = inside.split_once(' ').unwrap_or((inside, ""));
        if name.is_empty() || !name.bytes().all(|byte| byte.is_ascii_alphanumeric()) {
            return fail("a tag's name", inside);
        }
        found.push(Element { name, attributes: attribute_list(attributes)?, text: "" });
        roots += usize::from(open.is_empty());
        if !empty {
            open.push(name);
        }
    }
    match (open.is_empty(), roots) {
        (true, 1) => Ok(found),
        _ => Err(format!("{} tags left open, {roots} roots", open.len())),
    }
}

fn attribute_list(mut rest: &str) -> Result<Vec<(&str, &str)>, String> {
    let mut list: Vec<(&str, &str)> = Vec::new();
    while !rest.is_empty() {
        let parts =
            rest.split_once("=\"").and_then(|(name, rest)| Some((name, rest.split_once('"')?)));
        let Some((name, (value, after))) = parts else {
            return Err(format!("an attribute: {rest}"));
        };
        let right = !name.is_empty()
            && name.bytes().all(|byte| byte.is_ascii_alphanumeric() || byte == b'-');
        if !right || list.iter().any(|(own, _)| *own == name) || value.contains('<') {
            return Err(format!("an attribute: {name}=\"{value}\""));
        }
        entities(value)?;
        list.push((name, value));
        rest = after.strip_prefix(' ').unwrap_or(after);
    }
    Ok(list)
}

fn entities(text: &str) -> Result<(), String> {
    let known = ["amp;", "lt;", "gt;", "quot;"];
    if let Some(letter) = text.chars().find(|letter| letter.is_control() && *letter != '\n') {
        return Err(format!("a letter that no XML has: {letter:?}"));
    }
    match text.split('&').skip(1).find(|part| !known.iter().any(|name| part.starts_with(name))) {
        Some(part) => Err(format!("a bare & before {part}")),
        None => Ok(()),
    }
}

/// The faults of a run, straight from its masks: a node that is bad and was not in the frame before.
fn knocks(masks: &[u64]) -> u64 {
    let before = std::iter::once(0).chain(masks.iter().copied());
    masks.iter().zip(before).map(|(mask, before)| u64::from((mask & !before).count_ones())).sum()
}

/// How many columns a run has, and the frames of one.
fn columns(run: &Run) -> usize {
    run.frames.len().min(COLUMNS)
}

fn frames_of(run: &Run, column: usize) -> std::ops::Range<usize> {
    let edge = |column: usize| column * run.frames.len() / columns(run);
    edge(column)..edge(column + 1)
}

/// The column that a place lies in.
fn column_at(run: &Run, x: f64) -> usize {
    ((x - LEFT) / WIDTH * columns(run) as f64) as usize
}

/// The columns under some stretches from x to x; a thin one still covers one.
fn covered(run: &Run, stretches: impl Iterator<Item = (f64, f64)>) -> BTreeSet<usize> {
    let half = WIDTH / columns(run) as f64 / 2.0;
    let columns = |(from, to): (f64, f64)| {
        let first = column_at(run, from + half);
        first..=column_at(run, to - half).max(first)
    };
    stretches.flat_map(columns).collect()
}

fn wanted(run: &Run, test: impl Fn(usize) -> bool) -> BTreeSet<usize> {
    (0..columns(run)).filter(|&column| frames_of(run, column).any(&test)).collect()
}

/// The rectangles of a class within a panel.
fn rects<'a>(
    all: &'a [Element<'a>],
    class: &'a str,
    rows: (f64, f64),
) -> impl Iterator<Item = (f64, f64)> + 'a {
    let inside = move |element: &&Element| (rows.0..rows.1).contains(&element.number("y"));
    let rects = all.iter().filter(move |element| element.is("rect", class)).filter(inside);
    rects.map(|rect| (rect.number("x"), rect.number("x") + rect.number("width")))
}

/// A path of `M x y`, `V y`, `H x` and `Z`: its strokes from left to right or back, with their height.
fn strokes(d: &str) -> Vec<(f64, f64, f64)> {
    let (mut x, mut y, mut out) = (0.0, 0.0, Vec::new());
    let mut rest = d;
    while let Some(letter) = rest.chars().next() {
        let end =
            rest[1..].find(|c: char| c.is_ascii_alphabetic()).map_or(rest.len(), |end| end + 1);
        let numbers: Vec<f64> =
            rest[1..end].split(' ').filter_map(|word| word.parse().ok()).collect();
        match (letter, &numbers[..]) {
            ('M', [to_x, to_y]) => (x, y) = (*to_x, *to_y),
            ('V', [to]) => y = *to,
            ('H', [to]) => {
                out.push((x, *to, y));
                x = *to;
            }
            _ => {}
        }
        rest = &rest[end..];
    }
    out
}

/// A panel's axis, read off two of its numbers: a value's height.
struct Axis {
    first: (f64, f64),
    last: (f64, f64),
    /// Where the panel begins and ends.
    rows: (f64, f64),
}

impl Axis {
    /// The axis with its numbers at the left, in the panel between two heights.
    fn read(all: &[Element], rows: (f64, f64)) -> Result<Axis, String> {
        let inside =
            |element: &&Element| element.is("text", "small right") && element.number("x") < LEFT;
        let number = |element: &Element| {
            Some((element.text.parse::<f64>().ok()?, element.number("y") - 4.0))
        };
        let numbers = all.iter().filter(inside).filter_map(number);
        let numbers: Vec<_> =
            numbers.filter(|(_, y)| *y >= rows.0 - 0.1 && *y <= rows.1 + 0.1).collect();
        match (numbers.first(), numbers.last()) {
            (Some(&first), Some(&last)) if first.0 < last.0 => Ok(Axis { first, last, rows }),
            _ => Err(format!("an axis without two numbers: {numbers:?}")),
        }
    }

    fn y(&self, value: f64) -> f64 {
        let share = (value - self.first.0) / (self.last.0 - self.first.0);
        (self.first.1 + share * (self.last.1 - self.first.1)).clamp(self.rows.0, self.rows.1)
    }

    /// Coordinates have one digit behind the point, and what two of them are apart is stretched
    /// over the panel.
    fn slack(&self) -> f64 {
        0.1 + 0.1 * (self.rows.1 - self.rows.0) / (self.last.1 - self.first.1).abs().max(1.0)
    }
}

/// A curve drawn at the least and the greatest finite value of each column, with gaps where there
/// is none.
fn check_curve(run: &Run, d: &str, axis: &Axis, values: &[f64], what: &str) -> Result<(), String> {
    let mut drawn = vec![Vec::new(); columns(run)];
    for (from, to, y) in strokes(d) {
        let back = to < from;
        for column in covered(run, std::iter::once((from.min(to), from.max(to)))) {
            let place = drawn.get_mut(column).ok_or_else(|| format!("{what} beyond its panel"))?;
            place.push((back, y));
        }
    }
    for (column, drawn) in drawn.iter().enumerate() {
        let finite =
            || values[frames_of(run, column)].iter().copied().filter(|value| value.is_finite());
        let ends = finite().reduce(f64::max).zip(finite().reduce(f64::min));
        let exact = run.frames.len() <= COLUMNS;
        let wanted: Vec<(bool, f64)> = match ends {
            None => Vec::new(),
            Some((high, _)) if exact => vec![(false, axis.y(high))],
            Some((high, low)) => vec![(false, axis.y(high)), (true, axis.y(low))],
        };
        let close = |(left, right): (&(bool, f64), &(bool, f64))| {
            left.0 == right.0 && (left.1 - right.1).abs() <= axis.slack()
        };
        if drawn.len() != wanted.len() || !drawn.iter().zip(&wanted).all(close) {
            return Err(format!("{what}, column {column}: drawn at {drawn:?}, not {wanted:?}"));
        }
    }
    Ok(())
}

/// A panel: its heading's height tells where it stands.
fn check_setpoint(
    run: &Run,
    all: &[Element],
    heading: &Element,
    actuator: usize,
) -> Result<(), String> {
    let top = heading.number("y") + 8.0;
    let rows = (top, top + 92.0);
    let value = |frame: &super::view::listing::Frame| f64::from_bits(frame.setpoints[actuator]);
    let own: Vec<f64> = run.frames.iter().map(value).collect();
    let quiet: Vec<f64> = run.without_faults.iter().map(value).collect();
    let off = covered(run, rects(all, "off", (top - 4.1, top - 3.9)));
    same(
        "marks of setpoints that differ",
        off,
        wanted(run, |frame| own[frame].to_bits() != quiet[frame].to_bits()),
    )?;
    let count =
        (0..own.len()).filter(|&frame| own[frame].to_bits() != quiet[frame].to_bits()).count();
    let note = format!("not as without faults in {count} of {} frames", own.len());
    let noted = all.iter().any(|element| {
        element.is("text", "small right")
            && element.get("y") == heading.get("y")
            && element.text.replace(',', "") == note
    });
    same("a note", noted, count > 0)?;
    let nan = covered(run, rects(all, "nan", (top - 0.1, top + 0.1)));
    same("bands of no number", nan, wanted(run, |frame| own[frame].is_nan()))?;
    // A range of a few neighbouring values, or beyond the largest one, has no two numbers to read by.
    let Ok(axis) = Axis::read(all, rows) else { return Ok(()) };
    let highest = axis.first.0
        + (axis.first.1 - rows.0) / (axis.first.1 - axis.last.1) * (axis.last.0 - axis.first.0);
    let lowest = axis.first.0
        - (rows.1 - axis.first.1) / (axis.first.1 - axis.last.1) * (axis.last.0 - axis.first.0);
    let (slack, range) = ((highest - lowest) * 0.01, highest - lowest);
    if !range.is_finite() || range < highest.abs().max(lowest.abs()) * 1e-11 {
        return Ok(());
    }
    for (class, values) in [("quiet", &quiet), ("line", &own)] {
        let own_class = |element: &&Element| {
            element.name == "path" && element.get("class").split(' ').next() == Some(class)
        };
        let inside = |element: &&Element| {
            strokes(element.get("d"))
                .first()
                .is_some_and(|&(_, _, y)| y >= rows.0 - 0.1 && y <= rows.1 + 0.1)
        };
        let drawn =
            all.iter().filter(own_class).find(inside).map_or("", |element| element.get("d"));
        check_curve(run, drawn, &axis, values, class)?;
    }
    // The axis has all that a press without faults gets, what lies near it, and no more.
    let finite = || quiet.iter().copied().filter(|value| value.is_finite());
    if let Some((low, high)) = finite().reduce(f64::min).zip(finite().reduce(f64::max)) {
        let reach = match (low, high) == (0.0, 0.0) {
            true => f64::INFINITY,
            false => (2.0 * (high - low)).max(high.abs()).max(low.abs()),
        };
        let near = own
            .iter()
            .copied()
            .filter(|value| value.is_finite() && (low - reach..=high + reach).contains(value));
        let (least, most) =
            near.fold((low, high), |(least, most), value| (least.min(value), most.max(value)));
        let room = ((most - least) * 0.1).max(most.abs() * 0.1).max(1.0) + slack;
        let right = lowest <= least + slack
            && highest >= most - slack
            && lowest >= least - room
            && highest <= most + room;
        if !right {
            return Err(format!("the axis from {lowest} to {highest} for {least} to {most}"));
        }
    }
    let above = covered(run, rects(all, "beyond", (top - 0.1, top + 0.1)));
    let below = covered(run, rects(all, "beyond", (top + 87.9, top + 88.1)));
    for (frame, value) in own.iter().enumerate().filter(|(_, value)| !value.is_nan()) {
        let column =
            (0..columns(run)).find(|&column| frames_of(run, column).contains(&frame)).unwrap_or(0);
        let far = [
            (above.contains(&column), *value > highest + slack),
            (below.contains(&column), *value < lowest - slack),
        ];
        if far.iter().any(|(marked, beyond)| *beyond && !marked) {
            return Err(format!("frame {frame}: {value} is beyond the axis and not marked"));
        }
    }
    Ok(())
}

fn check_nodes(run: &Run, all: &[Element]) -> Result<u64, String> {
    let (mut stood, mut count) = (0, 0);
    for node in 0..run.nodes() {
        let label = format!("node {node}");
        let label = all.iter().find(|element| element.is("text", "right") && element.text == label);
        let top = label.ok_or("a node without its name")?.number("y") - 12.0;
        let bad = covered(run, rects(all, "bad", (top - 0.1, top + 0.1)));
        same("bad", &bad, &wanted(run, |frame| run.masks[frame] >> node & 1 == 1))?;
        let begins = format!("M{LEFT} {top}");
        let paths = all.iter().filter(|element| element.is("path", "recovering"));
        let own = paths.filter(|element| element.get("d").contains(&format!(" {top}H")));
        let parts = own.flat_map(|element| {
            element.get("d").split('M').skip(1).map(|part| strokes(&format!("M{part}"))[0])
        });
        let recovering = covered(run, parts.map(|(from, to, _)| (from, to)));
        let wanted = wanted(run, |frame| matches!(run.states[frame][node], State::Recovering(_)));
        same(&begins, recovering, wanted)?;
    }
    for (index, mark) in all.iter().enumerate().filter(|(_, element)| element.is("rect", "bad")) {
        let faults: u64 =
            mark.get("data-faults").parse().map_err(|_| "a mark without its faults")?;
        let title =
            all.get(index + 1).filter(|next| next.name == "title").map_or("", |next| next.text);
        let numbers: Vec<usize> = title
            .split(|c: char| !c.is_ascii_digit())
            .filter_map(|word| word.parse().ok())
            .collect();
        let (node, begin, end) = match (faults, &numbers[..]) {
            (1, [node, frame]) => (*node, *frame, *frame),
            (1, [node, begin, end]) => (*node, *begin, *end),
            (_, [node, told, begin, end]) if *told as u64 == faults => (*node, *begin, *end),
            _ => return Err(format!("a mark's title: {title}")),
        };
        let told = run.masks.get(begin..=end).filter(|masks| !masks.is_empty());
        let masks = told.ok_or_else(|| format!("a mark's title: {title}"))?;
        let masks: Vec<u64> = masks.iter().map(|mask| mask >> node & 1).collect();
        same(title, knocks(&masks), faults)?;
        same(title, (masks[0], masks[masks.len() - 1]), (1, 1))?;
        stood += faults;
        count += 1;
    }
    same("faults in the marks", stood, knocks(&run.masks))?;
    if run.frames.len() <= COLUMNS {
        same("marks", count, stood)?;
    }
    Ok(stood)
}

/// Where the hatched areas of the panels begin and end.
pub fn hatched(svg: &str) -> Result<Vec<(f64, f64)>, String> {
    Ok(rects(&elements(svg)?, "unpromised", (0.0, f64::INFINITY)).collect())
}

/// From the first frame on in which not more than half of the nodes work every panel is hatched from
/// its top to its foot, with a line where that begins; the words are there, and a sample before them.
fn check_promise(run: &Run, all: &[Element], headings: &[&Element]) -> Result<(), String> {
    let half = |frame: &usize| 2 * run.frames[*frame].working <= run.nodes() as u64;
    let end = (0..run.frames.len()).find(half);
    let words = promise::words(run.nodes(), end.map(|end| (end, run.frames[end].working)));
    let told = all.iter().filter(|element| element.name == "text" && element.text == words);
    same("the promise in words", told.count(), 1)?;
    let about = all.iter().find(|element| element.name == "desc").map_or("", |desc| desc.text);
    same("the promise in the description", about.ends_with(&format!("; {words}")), true)?;
    let count = |name: &str, class: &str| all.iter().filter(|one| one.is(name, class)).count();
    let some = usize::from(end.is_some());
    let patterns = all.iter().filter(|one| one.name == "pattern" && one.get("id") == "hatch");
    let marks = [
        patterns.count(),
        count("line", "hatch"),
        count("path", "unpromised"),
        count("rect", "unpromised"),
        count("line", "end"),
    ];
    let panels = headings.len();
    same("marks of the promise", marks, [1, 1, 1, panels, panels + 1].map(|one| one * some))?;
    let heights = [19.0 * run.nodes() as f64 - 3.0, 56.0];
    let heights = heights.into_iter().chain(std::iter::repeat(92.0));
    for (heading, height) in headings.iter().zip(heights) {
        let top = heading.number("y") + 8.0;
        let hatched = covered(run, rects(all, "unpromised", (top - 0.1, top + 0.1)));
        let wanted = wanted(run, |frame| end.is_some_and(|end| frame >= end));
        same("hatched columns", &hatched, &wanted)?;
        let Some(first) = wanted.first() else { continue };
        let near = |one: &Element, name: &str, value: f64| (one.number(name) - value).abs() < 0.06;
        let x = LEFT + WIDTH * *first as f64 / columns(run) as f64;
        let tall = |one: &&Element| {
            one.is("rect", "unpromised") && near(one, "y", top) && near(one, "height", height)
        };
        let line = |one: &&Element| {
            one.is("line", "end")
                && near(one, "x1", x)
                && near(one, "x2", x)
                && near(one, "y1", top)
                && near(one, "y2", top + height)
        };
        let found = (all.iter().filter(tall).count(), all.iter().filter(line).count());
        same("a panel's hatching and line", found, (1, 1))?;
    }
    // Its colours: for paper and light screens, and for dark ones.
    let style = all.iter().find(|element| element.name == "style").map_or("", |style| style.text);
    let (light, dark) = style.split_once("@media screen").unwrap_or((style, ""));
    let both = |class: &str| light.contains(class) && dark.contains(class);
    same("colours", both(".hatch{stroke:") && both(".end{stroke:"), true)
}

/// The whole picture of a run, read back.
pub fn check(run: &Run, svg: &str) -> Result<u64, String> {
    let all = elements(svg)?;
    if all.iter().any(|element| {
        element.name == "script"
            || element
                .attributes
                .iter()
                .any(|(name, _)| name.starts_with("on") || name.contains("href"))
    }) {
        return Err(String::from("a script or a link"));
    }
    for (name, value) in all.iter().flat_map(|element| &element.attributes) {
        if value.contains("NaN") || value.contains("inf") {
            return Err(format!("{name}=\"{value}\""));
        }
    }
    if svg.len() >= 2_000_000 {
        return Err(format!("the picture has {} bytes", svg.len()));
    }
    if run.frames.is_empty() {
        return Ok(0);
    }
    for tick in
        all.iter().filter(|element| element.is("text", "small middle") && element.text != "frame")
    {
        let frame: f64 = tick
            .text
            .replace(',', "")
            .parse()
            .map_err(|_| format!("a frame's number: {}", tick.text))?;
        let x = LEFT + WIDTH * (frame + 0.5) / run.frames.len() as f64;
        same("a frame's number", (tick.number("x") - x).abs() <= 0.06, true)?;
    }
    let most = (0..columns(run)).map(|column| frames_of(run, column).len()).max().unwrap_or(0);
    let note =
        format!("up to {most} frames share a column; in it a node is bad if it is in one of them");
    let noted = all.iter().any(|element| element.is("text", "small right") && element.text == note);
    same("the note on columns", noted, most > 1)?;
    let headings: Vec<&Element> = all.iter().filter(|element| element.is("text", "head")).collect();
    same("panels", headings.len(), 2 + run.actuators())?;
    check_promise(run, &all, &headings)?;
    let top = headings[1].number("y") + 8.0;
    let axis = Axis::read(&all, (top, top + 56.0))?;
    let agreement: Vec<f64> = run.frames.iter().map(|frame| frame.agreement as f64).collect();
    let inside = |element: &&Element| {
        element.name == "path"
            && element.get("class").starts_with("line")
            && strokes(element.get("d"))
                .first()
                .is_some_and(|&(_, _, y)| y >= top - 0.1 && y <= top + 56.1)
    };
    let drawn = all.iter().find(inside).map_or("", |element| element.get("d"));
    check_curve(run, drawn, &axis, &agreement, "agreement")?;
    for actuator in 0..run.actuators() {
        check_setpoint(run, &all, headings[2 + actuator], actuator)?;
    }
    check_nodes(run, &all)
}

/// 100,000 frames of the largest plan, faults in a tenth of them.
fn long(tree: &Tree) -> Result<(usize, u64), String> {
    let read = |name: &str| {
        fs::read(tree.root.join("tests/listings/largest").join(name))
            .map_err(|error| error.to_string())
    };
    let (plan, text) = (read("plan.txt")?, read("run.txt")?);
    let sensors = super::view::text::rows(&plan)[0][4] as usize;
    let r = &Random::new(7);
    let mut lines: Vec<_> = runs::lines(&text, sensors).into_iter().cycle().take(100_000).collect();
    for line in &mut lines {
        line[0] = if r.one_in(10) { r.below(128) as u64 } else { 0 };
        line[1] = r.below(256) as u64;
    }
    let (run, names) =
        tables::run(tree, plan, runs::text(&lines))?.ok_or("a plan that is refused")?;
    same("frames", run.frames.len(), 100_000)?;
    let svg = picture::svg(&run, &names, "long");
    Ok((svg.len(), check(&run, &svg)?))
}

pub fn all(tree: &Tree) -> Tested {
    for example in tables::EXAMPLES {
        let folder = tree.root.join("examples").join(example);
        let output = super::verbs::call(tree, &["picture", &folder.display().to_string(), "-"]);
        let read = |name: &str| {
            fs::read(folder.join(name)).map_err(|error| format!("{example}/{name}: {error}"))
        };
        let (run, _) = tables::run(tree, read("plan.txt")?, read("run.txt")?)?
            .ok_or("a plan that is refused")?;
        check(&run, &output.out).map_err(|report| format!("{example}: {report}"))?;
        if output.out.as_bytes() != read("picture.svg")? {
            return Err(format!("examples/{example}/picture.svg is not what picture draws"));
        }
    }
    let one = |seed: u64, counts: &mut [u64; 3]| {
        let case = case(seed);
        let (Some(plan), Some(text)) = (case.plan, case.run) else { return Ok(()) };
        let Some((run, mut names)) = tables::run(tree, plan, text)? else { return Ok(()) };
        names = Names { title: Some(String::from("a < b & \"c\" > d\u{1b}\u{c}")), ..names };
        counts[0] += 1;
        counts[1] += check(&run, &picture::svg(&run, &names, "case"))?;
        counts[2] += u64::from(run.frames.len() > COLUMNS);
        Ok(())
    };
    let sum = each(1000, one, |sum: &mut [u64; 3], count| (0..3).for_each(|i| sum[i] += count[i]))?;
    let (size, faults) = long(tree)?;
    for broken in [
        "<svg><a></svg></a>",
        "<svg a=\"1\" a=\"2\"/>",
        "<svg>&</svg>",
        "<svg/><svg/>",
        "<svg><a</svg>",
    ] {
        if elements(broken).is_ok() {
            return Err(format!("the test takes {broken} for well-formed"));
        }
    }
    Ok(format!(
        "{} examples, {} runs, {} of them with shared columns, curves and marks as listed, as many marks as faults ({}); 100,000 frames with {faults} faults in {size} bytes",
        tables::EXAMPLES.len(),
        sum[0],
        sum[2],
        sum[1]
    ))
}
