//! Runs a program over the generated cases and compares what it prints with the reference's.

use std::collections::BTreeMap;
use std::fs;
use std::io;
use std::path::{Path, PathBuf};
use std::process::{Command, Stdio};
use std::sync::atomic::{AtomicU64, Ordering};
use std::sync::Mutex;

use super::cases::{
    blocks_case, case, histories_case, Case, BLOCK, BLOCKS_CLASSES, CLASSES, HISTORIES_CLASSES,
    LIMITS,
};
use super::check;
use super::histories;
use super::listing::{listing, Listing, MOST_LINES};
use super::plan::read;

const WORKERS: usize = 2;

/// What is compared: the program's cases, and what it has to print.
pub struct Kind {
    /// The commands that compare and that make a case.
    compare: &'static str,
    case: &'static str,
    make: fn(u64) -> Case,
    expected: fn(&Case) -> Listing,
    classes: &'static [&'static [(&'static str, u64)]],
    refusals: &'static [u64],
    /// What else is counted, and which of these a case is.
    marks: &'static [&'static str],
    mark: fn(&Case, &Listing) -> Option<&'static str>,
    lines: &'static str,
    /// How many setpoints memory has to decide, and how many of these in the first line of a block
    /// that is not the first one; not counted where it is 0.
    decided: [u64; 2],
    /// From this many cases on, each class, refusal and mark has to come up, and so many setpoints.
    enough: u64,
}

pub static RUN: Kind = Kind {
    compare: "compare",
    case: "case",
    make: case,
    expected: |case| listing(&bytes(&case.plan), &bytes(&case.run)),
    classes: &[&CLASSES, &LIMITS],
    refusals: &[1, 2, 3, 4, 5, 6, 10],
    marks: &[],
    mark: |_, _| None,
    lines: "frames compared",
    decided: [1000, 0],
    enough: 3000,
};

pub static HISTORIES: Kind = Kind {
    compare: "histories",
    case: "histories-case",
    make: histories_case,
    expected: |case| histories::text(&bytes(&case.plan)),
    classes: &[&HISTORIES_CLASSES],
    refusals: &[1, 2, 3, 4, 5, 6, 11],
    marks: &[],
    mark: |_, _| None,
    lines: "histories compared",
    decided: [0, 0],
    enough: 1000,
};

pub static CHECK: Kind = Kind {
    compare: "check",
    case: "check-case",
    make: histories_case,
    expected: |case| check::text(&bytes(&case.plan)),
    classes: &[&HISTORIES_CLASSES],
    refusals: &[1, 2, 3, 4, 5, 6],
    marks: &[],
    mark: |_, _| None,
    lines: "periods compared",
    decided: [0, 0],
    enough: 1000,
};

pub static BLOCKS: Kind = Kind {
    compare: "blocks",
    case: "blocks-case",
    make: blocks_case,
    expected: |case| listing(&bytes(&case.plan), &bytes(&case.run)),
    classes: &[&BLOCKS_CLASSES],
    refusals: &[10],
    marks: &BLOCKS_MARKS,
    mark: blocks_mark,
    lines: "frames compared",
    decided: [1000, 30],
    enough: 400,
};

#[rustfmt::skip]
const BLOCKS_MARKS: [&str; 11] = [
    "refused, last line but one", "refused, last line of a block", "refused, first line of one",
    "refused, second line", "refused elsewhere past line 22", "refused, line 99,999",
    "refused, line 100,000", "refused, line 100,001", "ended with a block", "recovered, R above 60",
    "recovered, R = 513",
];

/// Where the run was refused or ended, or that a node recovered, all nodes working again.
fn blocks_mark(case: &Case, listing: &Listing) -> Option<&'static str> {
    let marks = &BLOCKS_MARKS;
    let Some(refusal) = listing.refusal else {
        let plan = read(bytes(&case.plan)).ok()?;
        let working = |line: &[u8]| line[11] - b'0';
        let lines = listing.bytes.split_inclusive(|&byte| byte == b'\n').map(working);
        let lines: Vec<_> = lines.collect();
        let all = plan.nodes as u8;
        let recovered = lines.windows(2).any(|two| two[0] < all && two[1] == all);
        return match plan.period {
            513 if recovered => Some(marks[10]),
            61.. if recovered => Some(marks[9]),
            _ if listing.lines > 0 && listing.lines % BLOCK == 0 => Some(marks[8]),
            _ => None,
        };
    };
    match (refusal.line, refusal.line % BLOCK) {
        (line, _) if line + 1 >= MOST_LINES => Some(marks[5 + line + 1 - MOST_LINES]),
        (..=22, _) => None,
        (_, 127) => Some(marks[0]),
        (_, edge @ ..=2) => Some(marks[1 + edge]),
        _ => Some(marks[4]),
    }
}

fn bytes(file: &Option<Vec<u8>>) -> &[u8] {
    file.as_deref().unwrap_or_default()
}

#[derive(Default)]
struct Totals {
    classes: BTreeMap<&'static str, u64>,
    refusals: BTreeMap<u64, u64>,
    marks: BTreeMap<&'static str, u64>,
    cases: u64,
    accepted: u64,
    lines: u64,
    decided: [u64; 2],
}

impl Totals {
    fn add(&mut self, class: &'static str, listing: &Listing, mark: Option<&'static str>) {
        *self.classes.entry(class).or_default() += 1;
        if let Some(mark) = mark {
            *self.marks.entry(mark).or_default() += 1;
        }
        if let Some(refusal) = listing.refusal {
            *self.refusals.entry(refusal.number).or_default() += 1;
        }
        self.cases += 1;
        self.accepted += u64::from(listing.accepted);
        self.lines += listing.lines as u64;
        let first_line = |&&frame: &&usize| frame > 0 && frame % BLOCK == 0;
        self.decided[0] += listing.decided.len() as u64;
        self.decided[1] += listing.decided.iter().filter(first_line).count() as u64;
    }

    /// Prints the table; false if some class, refusal or mark never came up, or memory decided too
    /// few setpoints.
    fn print(&self, kind: &Kind) -> bool {
        let mut complete = true;
        for (class, _) in kind.classes.iter().copied().flatten() {
            let cases = self.classes.get(class).copied().unwrap_or(0);
            complete &= cases > 0;
            println!("{class:<32}{cases:>10}");
        }
        for &number in kind.refusals {
            let cases = self.refusals.get(&number).copied().unwrap_or(0);
            complete &= cases > 0;
            println!("{:<32}{cases:>10}", format!("refusal {number}"));
        }
        for mark in kind.marks {
            let cases = self.marks.get(mark).copied().unwrap_or(0);
            complete &= cases > 0;
            println!("{mark:<32}{cases:>10}");
        }
        println!("{:<32}{:>10}", "accepted plans", self.accepted);
        println!("{:<32}{:>10}", kind.lines, self.lines);
        let decided = ["setpoints that memory decided", "of these, first line of a block"];
        for ((name, least), setpoints) in decided.iter().zip(kind.decided).zip(self.decided) {
            complete &= setpoints >= least;
            if least > 0 {
                println!("{name:<32}{setpoints:>10}");
            }
        }
        complete
    }
}

/// Writes the case's files into a folder; a file that the case lacks is taken away.
pub fn write_case(case: &Case, folder: &Path) -> io::Result<()> {
    fs::create_dir_all(folder)?;
    for (name, content) in [("plan.txt", &case.plan), ("run.txt", &case.run)] {
        let path = folder.join(name);
        match content {
            Some(bytes) => fs::write(path, bytes)?,
            None if path.exists() => fs::remove_file(path)?,
            None => {}
        }
    }
    Ok(())
}

struct Difference {
    seed: u64,
    report: String,
}

struct Comparer {
    kind: &'static Kind,
    program: PathBuf,
    folder: PathBuf,
    /// The cases run from `first` up to, not including, `end`.
    first: u64,
    end: u64,
    next: AtomicU64,
    totals: Mutex<Totals>,
    difference: Mutex<Option<Difference>>,
}

impl Comparer {
    /// Compares one case in a folder of its own; gives a report if the listings differ.
    fn compare(&self, seed: u64) -> io::Result<Option<String>> {
        let case = (self.kind.make)(seed);
        let folder = self.folder.join(format!("{}-{seed}", self.kind.case));
        if folder.exists() {
            fs::remove_dir_all(&folder)?;
        }
        write_case(&case, &folder)?;
        let expected = (self.kind.expected)(&case);
        let output =
            Command::new(&self.program).current_dir(&folder).stdin(Stdio::null()).output()?;
        if output.stdout == expected.bytes {
            let mark = (self.kind.mark)(&case, &expected);
            self.totals.lock().unwrap().add(case.class, &expected, mark);
            fs::remove_dir_all(&folder)?;
            return Ok(None);
        }
        fs::write(folder.join("expected"), &expected.bytes)?;
        fs::write(folder.join("got"), &output.stdout)?;
        fs::write(folder.join("errors"), &output.stderr)?;
        let lines = first_difference(&expected.bytes, &output.stdout);
        let header = format!("seed {seed}, class \"{}\": the listings differ\n", case.class);
        Ok(Some(header + &lines + &self.again(seed, &folder)))
    }

    /// Where the case is kept and how to make and run it again.
    fn again(&self, seed: u64, folder: &Path) -> String {
        let reference = std::env::args().next().unwrap_or_default();
        let Kind { compare, case, .. } = self.kind;
        let (program, folder) = (self.program.display(), folder.display());
        format!(
            "kept in {folder} (the case's files, expected, got, errors)\n\
             to make it and run it again:\n  \
             {reference} {case} {seed} {folder} && (cd {folder} && {program} | diff - expected)\n\
             to compare it again:\n  {reference} {compare} {program} 1 {seed}\n"
        )
    }

    /// Takes one seed after another until there is none left or a difference was found.
    fn work(&self) {
        while self.difference.lock().unwrap().is_none() {
            let seed = self.next.fetch_add(1, Ordering::Relaxed);
            if seed >= self.end {
                return;
            }
            let report = self.compare(seed).unwrap_or_else(|error| {
                Some(format!("seed {seed}: {} can't be run: {error}\n", self.program.display()))
            });
            if let Some(report) = report {
                let mut difference = self.difference.lock().unwrap();
                if difference.as_ref().map_or(true, |found| seed < found.seed) {
                    *difference = Some(Difference { seed, report });
                }
            }
        }
    }

    /// Prints the difference found or the table; true if all was equal and nothing was left out.
    fn finish(self) -> bool {
        if let Some(difference) = self.difference.into_inner().unwrap() {
            print!("{}", difference.report);
            return false;
        }
        let totals = self.totals.into_inner().unwrap();
        let complete = totals.print(self.kind) || self.end - self.first < self.kind.enough;
        if !complete {
            println!("something above never came up, or too seldom");
            return false;
        }
        println!("{} cases equal", totals.cases);
        true
    }
}

/// The first line that differs, as expected and as printed.
fn first_difference(expected: &[u8], got: &[u8]) -> String {
    let mut expected = expected.split_inclusive(|&byte| byte == b'\n');
    let mut got = got.split_inclusive(|&byte| byte == b'\n');
    let show = |line: Option<&[u8]>| match line {
        Some(line) => format!("\"{}\"", line[..line.len().min(400)].escape_ascii()),
        None => String::from("no line"),
    };
    for number in 1.. {
        let (left, right) = (expected.next(), got.next());
        if left != right || left.is_none() {
            let (left, right) = (show(left), show(right));
            return format!("line {number} expected: {left}\nline {number} got:      {right}\n");
        }
    }
    unreachable!()
}

/// Compares the cases of `count` seeds from `first` on; false if a listing differs or the cases
/// are not what they should be.
pub fn compare(kind: &'static Kind, program: &str, count: u64, first: u64) -> io::Result<bool> {
    let folder = std::env::var_os("CASES").unwrap_or_else(|| "target/reference".into());
    // The program runs in another folder, so a path to it must not be relative.
    let program = match program.contains('/') {
        true => fs::canonicalize(program)
            .map_err(|error| io::Error::new(error.kind(), format!("{program}: {error}")))?,
        false => PathBuf::from(program),
    };
    let comparer = Comparer {
        kind,
        program,
        folder: PathBuf::from(folder),
        first,
        end: first.saturating_add(count),
        next: AtomicU64::new(first),
        totals: Mutex::default(),
        difference: Mutex::default(),
    };
    std::thread::scope(|scope| {
        (0..WORKERS).for_each(|_| drop(scope.spawn(|| comparer.work())));
    });
    Ok(comparer.finish())
}
