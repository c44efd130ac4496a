//! The named forms both ways, on the plans and runs that the reference's generator makes.

use std::fs;

use super::cases::case;
use super::plan;
use super::random::{Random, Values};
use super::view::named;
use super::view::names::Names;
use super::view::programs::{refusal, Checked};
use super::view::text::{self, Row};
use super::view::words::Mistake;
use super::view::{cause, pattern, runs};
use super::{each, same, Tested, Tree};

/// Seeds of the reference's cases; about a third have an accepted plan.
const CASES: u64 = 8000;

/// Patterns written and read again are the same, and no shorter decimal reads back to them.
pub fn values() -> Tested {
    let r = &Random::new(21);
    let mut count = 0;
    for round in 0..200_000u64 {
        let values = &Values::new(&Random::new(round % 64));
        let bits = match round % 4 {
            0 => r.next(),
            1 => values.any(r),
            2 => (r.below(4_000_000) as f64 / 1024.0 - 2000.0).to_bits(),
            _ => (r.below(2_000_000) as f64 / 1000.0 - 1000.0).to_bits(),
        };
        let word = pattern::written(bits);
        same(&word, pattern::read(&word), Ok(bits))?;
        if f64::from_bits(bits).is_finite() {
            shortest(bits, &word)?;
        }
        count += 1;
    }
    for (word, bits) in [
        ("-0", 1 << 63),
        ("0x7ff8000000000000", 0x7FF8 << 48),
        ("1e3", 0x408F_4000_0000_0000),
        ("0x0", 0),
        ("00.5", 0x3FE0 << 48),
    ] {
        same(word, pattern::read(word), Ok(bits))?;
    }
    for (value, word) in [
        (1e16, "1e16"),
        (9999999999999998.0, "9999999999999998"),
        (-1e15, "-1000000000000000"),
        (1e-5, "0.00001"),
        (9.5e-6, "9.5e-6"),
        (0.1, "0.1"),
        (20.0, "20"),
        (f64::MAX, "1.7976931348623157e308"),
        (5e-324, "5e-324"),
    ] {
        same("a decimal", pattern::decimal(value).as_str(), word)?;
    }
    for word in [
        "",
        "-",
        "1.",
        ".5",
        "1e",
        "+1",
        "nan",
        "inf",
        "1e999",
        "0x",
        "0x12345678123456781",
        "1_0",
        "1,5",
        "0x-1",
        "--1",
        "1e5.5",
    ] {
        if pattern::read(word).is_ok() {
            return Err(format!("'{word}' is read as a value"));
        }
    }
    Ok(format!("{count} patterns written and read again, the shortest decimals"))
}

/// One digit fewer, rounded down or up, is another value.
fn shortest(bits: u64, word: &str) -> Result<(), String> {
    let value = f64::from_bits(bits);
    let digits = word
        .split('e')
        .next()
        .unwrap_or_default()
        .bytes()
        .filter(u8::is_ascii_digit)
        .collect::<Vec<_>>();
    let first = digits.iter().position(|&digit| digit != b'0').unwrap_or(digits.len());
    let last = digits.iter().rposition(|&digit| digit != b'0').unwrap_or(0);
    if first + 1 > last || digits.is_empty() {
        return Ok(());
    }
    let fewer = last - first;
    let near = format!("{value:.*e}", fewer - 1);
    match near.parse::<f64>().map(f64::to_bits) == Ok(bits) {
        true => Err(format!("{word}: {near} reads back too")),
        false => Ok(()),
    }
}

const LETTERS: [&str; 12] =
    ["a", "b", "q", "Z", "_", "ü", "é", "trim", "vote", "nodes", "cell", "ä0"];

/// Names of all sorts, keywords among them, each list without repeats.
fn drawn(r: &Random, header: &Row) -> Names {
    let list = |count: u64| -> Vec<String> {
        let mut names: Vec<String> = Vec::new();
        while names.len() < count as usize {
            let mut name = String::from(r.pick(&LETTERS));
            (0..r.below(4)).for_each(|_| name += r.pick(&["x", "1", "-", ".", "_", "ß", "9"]));
            if !names.contains(&name) {
                names.push(name);
            }
        }
        names
    };
    let [_, _, frames, cells, sensors, actuators] = *header;
    let made_up = Names::made_up(header);
    Names {
        title: r.pick(&[None, Some("a run: 7 = 7 # & <b>")]).map(String::from),
        frames: if r.one_in(2) { made_up.frames } else { list(frames) },
        sensors: list(sensors),
        cells: list(cells),
        actuators: list(actuators),
    }
}

/// The lines of a named plan in another order: tasks of one frame and cells, sensors, actuators in
/// their own order, and everything else anyhow.
fn mixed(r: &Random, file: &str) -> String {
    let group = |line: &str| -> String {
        match line.split_once(": ") {
            // A task's target may be called vote.
            Some((_, rest)) if rest.starts_with("vote ") && !rest.starts_with("vote =") => {
                format!("{} {line}", r.below(3))
            }
            Some((frame, _)) => String::from(frame),
            None => String::from(line.split(' ').next().unwrap_or_default()),
        }
    };
    let mut groups: Vec<(String, Vec<&str>)> = Vec::new();
    // The first line may be the title.
    let (title, rest) = match file.starts_with('#') {
        true => file.split_once('\n').unwrap_or((file, "")),
        false => ("", file),
    };
    for line in rest.lines() {
        let name = group(line);
        match groups.iter_mut().find(|(group, _)| *group == name) {
            Some((_, lines)) => lines.push(line),
            None => groups.push((name, vec![line])),
        }
    }
    groups.iter_mut().for_each(|(_, lines)| lines.reverse());
    let mut out = format!("{title}\n");
    while !groups.is_empty() {
        let index = r.below(groups.len());
        out += groups[index].1.pop().unwrap_or_default();
        out += r.pick(&["\n", "   # a comment: x = y\n", "\n\n", "\t\n", "\r\n"]);
        if groups[index].1.is_empty() {
            groups.remove(index);
        }
    }
    out
}

fn read(file: &str) -> Result<named::Named, String> {
    named::read(file).map_err(|fault| format!("{}{file}", fault.report("plan.named")))
}

/// Plan texts to named plans and back, byte for byte, whatever the names, and with lines in another
/// order.
pub fn plans(_: &Tree) -> Tested {
    let one = |seed: u64, count: &mut u64| {
        let Some(bytes) = case(seed).plan.filter(|bytes| plan::read(bytes).is_ok()) else {
            return Ok(());
        };
        let r = &Random::new(seed);
        let rows = text::rows(&bytes);
        for names in [Names::made_up(&rows[0]), drawn(r, &rows[0])] {
            let file = named::write(&rows, &names);
            let back = read(&file)?;
            same("the plan text", text::text(&back.rows) == bytes, true)
                .map_err(|report| report + &file)?;
            same("the names", &back.names, &names)?;
            same("the named form", named::write(&back.rows, &back.names), file.clone())?;
            let mixed = mixed(r, &file);
            same("the plan text of mixed lines", text::text(&read(&mixed)?.rows) == bytes, true)
                .map_err(|report| report + &mixed)?;
        }
        *count += 1;
        Ok(())
    };
    let count = each(CASES, one, |sum: &mut u64, count| *sum += count)?;
    match count >= 2000 {
        true => Ok(format!(
            "{count} plan texts, to named plans and back the same, by two sets of names each"
        )),
        false => Err(format!("only {count} plan texts were accepted")),
    }
}

/// Run texts to named runs and back, byte for byte.
pub fn runs(_: &Tree) -> Tested {
    let one = |seed: u64, counts: &mut [u64; 2]| {
        let case = case(seed);
        let (Some(plan), Some(run)) = (case.plan, case.run) else { return Ok(()) };
        let Ok(read) = plan::read(&plan) else { return Ok(()) };
        let listing = super::listing::listing(&plan, &run);
        if listing.refusal.is_some() {
            return Ok(());
        }
        let header = text::rows(&plan)[0];
        let names = drawn(&Random::new(seed), &header);
        let file = runs::write(&runs::lines(&run, read.sensors), &names);
        let back = runs::read(&file, &header, &names)
            .map_err(|fault| fault.report("run.named") + &file)?;
        same("the run text", runs::text(&back.lines) == run, true)
            .map_err(|report| report + &file)?;
        let file = exchanged(&file);
        let back = runs::read(&file, &header, &names).map_err(|fault| fault.report("run.named"))?;
        same("the run text of exchanged sensors", runs::text(&back.lines) == run, true)
            .map_err(|report| report + &file)?;
        counts[0] += 1;
        counts[1] += listing.lines as u64;
        Ok(())
    };
    let [count, frames] =
        each(CASES, one, |sum: &mut [u64; 2], count| (0..2).for_each(|i| sum[i] += count[i]))?;
    match count >= 2000 {
        true => {
            Ok(format!("{count} run texts of {frames} frames, to named runs and back the same"))
        }
        false => Err(format!("only {count} run texts were accepted")),
    }
}

/// A named run with the first two sensors exchanged in their line and in every frame.
fn exchanged(file: &str) -> String {
    let mut sensors = 0;
    let line = |line: &str| {
        let mut words: Vec<&str> = line.split_whitespace().collect();
        let at = usize::from(words.first() == Some(&"sensors"));
        if at == 1 {
            sensors = words.len() - 1;
        }
        if sensors > 1 {
            words.swap(at, at + 1);
        }
        words.join(" ") + "\n"
    };
    file.lines().map(line).collect()
}

/// The plan and the run that docs/NAMED.md shows: the plan of examples/numbering, and a run of it.
pub fn page(tree: &Tree) -> Tested {
    let read = |name: &str| {
        fs::read_to_string(tree.root.join(name)).map_err(|error| format!("{name}: {error}"))
    };
    let page = read("docs/NAMED.md")?;
    let blocks: Vec<&str> = page.split("```\n").skip(1).step_by(2).collect();
    let [plan, _, _, run] = blocks[..] else {
        return Err(format!("docs/NAMED.md has {} blocks, not 4", blocks.len()));
    };
    let plan = named::read(plan).map_err(|fault| fault.report("docs/NAMED.md"))?;
    let wanted = read("examples/numbering/plan.txt")?;
    same("the plan", String::from_utf8_lossy(&text::text(&plan.rows)).into_owned(), wanted)?;
    let run = runs::read(run, &plan.rows[0], &plan.names)
        .map_err(|fault| fault.report("docs/NAMED.md"))?;
    same("masks", run.lines.iter().map(|line| line[0]).collect(), vec![0, 0, 0, 0, 2, 0])?;
    Ok(String::from("the plan and the run that it shows are read"))
}

/// Puts a word in, takes one out, exchanges two, or writes something else for one.
fn damage(r: &Random, file: &str) -> String {
    let mut lines: Vec<String> = file.lines().map(String::from).collect();
    let at = r.below(lines.len());
    let other = lines[r.below(lines.len())].clone();
    let mut words: Vec<&str> = lines[at].split(' ').collect();
    let word = r.below(words.len());
    let odd = [
        "",
        ":",
        "=",
        "#",
        "9",
        "99999",
        "-1",
        "0x",
        "1e400",
        "vote",
        "nodes 4",
        "bad",
        "fill",
        "fill 300",
        "silent",
        "times",
        "times 0",
        "times 200000",
        "sensors",
        "c0",
        "s1",
        "é",
    ];
    match r.below(6) {
        0 => drop(words.remove(word)),
        1 => words.insert(word, r.pick(&odd)),
        2 => words[word] = r.pick(&odd),
        3 => words.swap(word, 0),
        4 => words = other.split(' ').collect(),
        _ => words.clear(),
    }
    lines[at] = words.join(" ");
    lines.join("\n") + "\n"
}

/// An error names a line of the file and a word in it.
fn placed(fault: &Mistake, file: &str) -> Result<(), String> {
    let line = fault.line.checked_sub(1).and_then(|index| file.lines().nth(index));
    match (fault.line, line) {
        (0, _) => Ok(()),
        (_, Some(line)) if line.contains(&fault.word) => Ok(()),
        _ => Err(format!("an error at no place\n{}{file}", fault.report("file"))),
    }
}

/// Named files with an error in them: what is read is accepted or refused by the proved program
/// with a place, what is not read has a line and a word of the file.
pub fn damaged(tree: &Tree) -> Tested {
    let one = |seed: u64, counts: &mut [u64; 4]| {
        let case = case(seed);
        let (Some(bytes), Some(run)) = (case.plan, case.run) else { return Ok(()) };
        if plan::read(&bytes).is_err() || bytes.len() > 60 * text::LINE {
            return Ok(());
        }
        let r = &Random::new(seed);
        let rows = text::rows(&bytes);
        let names = Names::made_up(&rows[0]);
        for _ in 0..3 {
            let file = damage(r, &named::write(&rows, &names));
            match named::read(&file) {
                Err(fault) => placed(&fault, &file).map(|()| counts[0] += 1)?,
                Ok(named) => {
                    let plan = text::text(&named.rows);
                    match tree.programs.check(&plan).map_err(|unable| unable.0)? {
                        Checked::Accepted(_) => counts[1] += 1,
                        Checked::Refused(refused) => {
                            counts[2] += 1;
                            let found = cause::of_plan(&plan, Some(&named.names))
                                .map(|cause| cause.refusal);
                            same("a named plan's refusal", found, Some(refused))
                                .map_err(|report| report + &file)?;
                        }
                    }
                }
            }
        }
        let lines = runs::lines(&run, rows[0][4] as usize);
        for _ in 0..if (1..100).contains(&lines.len()) { 6 } else { 0 } {
            let file = damage(r, &runs::write(&lines, &names));
            match runs::read(&file, &rows[0], &names) {
                Err(fault) => placed(&fault, &file).map(|()| counts[0] += 1)?,
                Ok(named) => {
                    let run = runs::text(&named.lines);
                    let listing =
                        tree.programs.output_on("run", &[("plan.txt", &bytes), ("run.txt", &run)]);
                    if let Some(refused) = refusal(&listing.map_err(|unable| unable.0)?) {
                        let found = cause::of_run(&rows[0], &names, &run, refused.line)
                            .map(|cause| cause.refusal);
                        same("a named run's refusal", found, Some(refused))
                            .map_err(|report| report + &file)?;
                        counts[3] += 1;
                    }
                }
            }
        }
        Ok(())
    };
    let sum =
        each(CASES / 4, one, |sum: &mut [u64; 4], count| (0..4).for_each(|i| sum[i] += count[i]))?;
    match sum.iter().all(|&count| count > 20) {
        true => Ok(format!("{} with line and word, {} still accepted, {} plans and {} runs refused by the proved program with a cause", sum[0], sum[1], sum[2], sum[3])),
        false => Err(format!("some kind of damage hardly came up: {sum:?}")),
    }
}
