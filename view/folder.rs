//! The files that a verb is given: plans and runs as texts or in named form, in a folder or by
//! themselves.

use std::fs;
use std::io::ErrorKind;
use std::path::{Path, PathBuf};

use super::cause::{self, Cause, Refusal};
use super::listing::{self, Run};
use super::named::{self, Named};
use super::names::Names;
use super::programs::{say, unable, Checked, Found, Programs, Unable};
use super::runs::{self, NamedRun};
use super::text::{self, Row};
use super::words::Mistake;

pub const PLAN: &str = "plan.txt";
pub const RUN: &str = "run.txt";
pub const NAMED_PLAN: &str = "plan.named";
pub const NAMED_RUN: &str = "run.named";

/// Why there is nothing to show: a file is missing (status 2), or a plan, a run line or a named
/// file is refused (status 1), with its report.
pub enum Stop {
    Unable(String),
    Refused(String),
}

impl From<Unable> for Stop {
    fn from(unable: Unable) -> Stop {
        Stop::Unable(unable.0)
    }
}

pub type Outcome<T> = Result<T, Stop>;

/// A plan as a text, with the named plan it was made of or that stands beside it.
pub struct Plan {
    /// The file as it was named by the user.
    pub file: String,
    pub text: Vec<u8>,
    pub origin: Origin,
}

/// Where a plan's text comes from.
pub enum Origin {
    /// A plan text, with the named plan beside it that gives the same.
    Text(Option<Named>),
    /// A named plan.
    Named(Named),
}

/// A run as a text; of a named one the places of its lines.
pub struct RunFile {
    pub file: String,
    pub text: Vec<u8>,
    pub named: Option<NamedRun>,
}

fn bytes(path: &Path) -> Found<Vec<u8>> {
    let shown = path.display();
    fs::read(path).or_else(|error| match error.kind() {
        ErrorKind::NotFound => unable(format!("there is no file {shown}; name one that is there")),
        ErrorKind::IsADirectory => unable(format!("{shown} is a folder; name a file in it")),
        _ => unable(format!("{shown} cannot be read ({error}); name a file that can be")),
    })
}

/// The words of a file in named form; a byte order mark before them is no word.
fn words(path: &Path, bytes: &[u8]) -> Outcome<String> {
    match std::str::from_utf8(bytes) {
        Ok(file) => Ok(String::from(file.strip_prefix('\u{feff}').unwrap_or(file))),
        Err(error) => {
            let before = &bytes[..error.valid_up_to()];
            let line = before.iter().filter(|&&byte| byte == b'\n').count() + 1;
            let says = String::from("the line is not UTF-8 text");
            let fault = Mistake { line, word: String::new(), says };
            Err(Stop::Refused(fault.report(&path.display().to_string())))
        }
    }
}

fn is_named(path: &Path) -> bool {
    path.extension().is_some_and(|end| end == "named")
}

pub fn folder(path: &Path) -> Found<PathBuf> {
    match path.is_dir() {
        true => Ok(path.to_path_buf()),
        false => unable(format!(
            "there is no folder {}; name one with {PLAN} and {RUN} in it, or {NAMED_PLAN} and {NAMED_RUN}",
            path.display()
        )),
    }
}

/// A plan in named form.
pub fn named_plan(path: &Path) -> Outcome<Plan> {
    let file = path.display().to_string();
    let bytes = bytes(path)?;
    if bytes.starts_with(b"   0") && bytes.get(text::LINE - 1) == Some(&b'\n') {
        let says = format!("{file} is a plan text already; ./ragbasalt text gives its named form");
        return Err(Stop::Unable(says));
    }
    let named = named::read(&words(path, &bytes)?)
        .map_err(|mistake| Stop::Refused(mistake.report(&file)))?;
    Ok(Plan { text: text::text(&named.rows), origin: Origin::Named(named), file })
}

/// A plan text; the names are those of the named plan beside it, if that gives the same text.
fn plan_text(path: &Path) -> Outcome<Plan> {
    let file = path.display().to_string();
    let text = bytes(path)?;
    if std::str::from_utf8(&text).is_ok_and(named::begins) {
        let says = format!("{file} looks like a named plan; call it *.named, or make its text with ./ragbasalt plan");
        return Err(Stop::Unable(says));
    }
    let beside = path.with_file_name(NAMED_PLAN);
    let named = fs::read(&beside).ok();
    let named = named.and_then(|bytes| named::read(&words(&beside, &bytes).ok()?).ok());
    let named = named.filter(|named| text::text(&named.rows) == text);
    Ok(Plan { file, text, origin: Origin::Text(named) })
}

/// The forms of a plan or run that a folder has: the text, the named one, or both.
enum Forms {
    Text(PathBuf),
    Named(PathBuf),
    Both(PathBuf, PathBuf),
}

fn forms(folder: &Path, text: &str, named: &str) -> Found<Forms> {
    let (file, beside) = (folder.join(text), folder.join(named));
    match (file.exists(), beside.exists()) {
        (true, false) => Ok(Forms::Text(file)),
        (false, true) => Ok(Forms::Named(beside)),
        (true, true) => Ok(Forms::Both(file, beside)),
        (false, false) => unable(format!(
            "there is neither {text} nor {named} in {}; put one there",
            folder.display()
        )),
    }
}

/// The plan of a file, or of a folder: its text, or if there is none its named plan. A named plan
/// beside the text of a folder that gives another text is told of.
pub fn plan(path: &Path) -> Outcome<Plan> {
    if !path.is_dir() {
        return if is_named(path) { named_plan(path) } else { plan_text(path) };
    }
    match forms(path, PLAN, NAMED_PLAN)? {
        Forms::Text(file) => plan_text(&file),
        Forms::Named(file) => named_plan(&file),
        Forms::Both(file, beside) => {
            let plan = plan_text(&file)?;
            if plan.named().is_none() {
                let beside = beside.display();
                say(&format!("{beside} does not give {PLAN}, which is used; to use it: ./ragbasalt plan {beside} >{}", plan.file));
            }
            Ok(plan)
        }
    }
}

/// A run in named form.
pub fn named_run(path: &Path, plan: &Accepted) -> Outcome<RunFile> {
    let file = path.display().to_string();
    let named = runs::read(&words(path, &bytes(path)?)?, plan.header(), &plan.names);
    let named = named.map_err(|mistake| Stop::Refused(mistake.report(&file)))?;
    Ok(RunFile { text: runs::text(&named.lines), named: Some(named), file })
}

/// A run text.
pub fn run_text(path: &Path) -> Outcome<RunFile> {
    Ok(RunFile { file: path.display().to_string(), text: bytes(path)?, named: None })
}

/// The run of a folder: its text, or if there is none its named run. A named run beside the text
/// that gives another text is told of.
pub fn run(folder: &Path, plan: &Accepted) -> Outcome<RunFile> {
    match forms(folder, RUN, NAMED_RUN)? {
        Forms::Text(file) => run_text(&file),
        Forms::Named(file) => named_run(&file, plan),
        Forms::Both(file, beside) => {
            let run = run_text(&file)?;
            let same = named_run(&beside, plan).is_ok_and(|named| named.text == run.text);
            // Where the named plan gives another plan, that has been told.
            if !same && plan.plan.named().is_some() {
                let (named, beside) = (folder.join(NAMED_PLAN), beside.display());
                say(&format!("{beside} does not give {RUN}, which is used; to use it: ./ragbasalt plan {} {beside} >{}", named.display(), run.file));
            }
            Ok(run)
        }
    }
}

/// A plan that the proved program accepted, with its period and its names.
pub struct Accepted {
    pub plan: Plan,
    pub rows: Vec<Row>,
    pub period: usize,
    pub names: Names,
}

impl Accepted {
    pub fn header(&self) -> &Row {
        &self.rows[0]
    }
}

impl Plan {
    /// The named plan that gives the text.
    pub fn named(&self) -> Option<&Named> {
        match &self.origin {
            Origin::Text(beside) => beside.as_ref(),
            Origin::Named(named) => Some(named),
        }
    }

    pub fn is_named(&self) -> bool {
        matches!(self.origin, Origin::Named(_))
    }

    /// The report of a refusal that the proved program gave: of a named plan its line and word.
    pub fn report(&self, refusal: Refusal) -> String {
        let found = cause::of_plan(&self.text, self.named().map(|named| &named.names));
        if let Origin::Named(named) = &self.origin {
            return named_report(&self.file, named, refusal, found.as_ref());
        }
        let index = refusal.line.checked_sub(1);
        let line = index.and_then(|index| self.text.chunks(text::LINE).nth(index));
        cause::report(&self.file, refusal, found.as_ref(), line)
    }

    /// The plan with its period, by the proved program, or the refusal.
    pub fn accepted(self, programs: &Programs) -> Outcome<Accepted> {
        match programs.check(&self.text)? {
            Checked::Refused(refusal) => Err(Stop::Refused(self.report(refusal))),
            Checked::Accepted(period) => {
                let rows = text::rows(&self.text);
                let made_up = || Names::made_up(&rows[0]);
                let names = self.named().map_or_else(made_up, |named| named.names.clone());
                Ok(Accepted { plan: self, period, names, rows })
            }
        }
    }
}

/// A refusal of the text made of a named plan: where it stands there.
fn named_report(file: &str, named: &Named, refusal: Refusal, found: Option<&Cause>) -> String {
    let found = found.filter(|found| found.refusal == refusal);
    let rule = cause::rule(refusal.number);
    let words = found.map_or(rule, |found| &found.words);
    let column = found.and_then(|found| found.column.as_ref()).map_or(0, |(column, ..)| *column);
    // A cell that never becomes known stands in the row behind the header that has its number.
    let cell = found.and_then(|found| found.cells.first()).map(|cell| (cell + 1, 1));
    let place = refusal.line.checked_sub(1).map(|index| (index, column)).or(cell);
    let place = place.and_then(|(index, column)| Some(&named.sources.get(index)?[column]));
    let (line, word) = place.cloned().unwrap_or_default();
    let says = format!("refusal {}: {words}", refusal.number);
    let rule = if found.is_some() { format!("  rule: {rule}\n") } else { String::new() };
    Mistake { line, word, says }.report(file) + &rule
}

impl RunFile {
    /// The report of a refused run line.
    pub fn report(&self, refusal: Refusal, plan: &Accepted) -> String {
        let found = cause::of_run(plan.header(), &plan.names, &self.text, refusal.line);
        let found = found.filter(|found| found.refusal == refusal);
        let index = refusal.line.saturating_sub(1);
        if let Some(source) = self.named.as_ref().and_then(|named| named.sources.get(index)) {
            let is_fill = found.as_ref().is_some_and(|found| matches!(found.column, Some((1, ..))));
            let (line, word) =
                if is_fill { source.fill.clone() } else { (source.line, String::new()) };
            let words = found.as_ref().map_or(cause::rule(refusal.number), |found| &found.words);
            let says = format!("refusal {}: {words}", refusal.number);
            return Mistake { line, word, says }.report(&self.file);
        }
        let size = cause::run_line(plan.header()[4] as usize);
        let start = self.text.len().min(index.saturating_mul(size));
        let rest = &self.text[start..self.text.len().min(start + size)];
        let line = rest.split_inclusive(|&byte| byte == b'\n').next();
        cause::report(&self.file, refusal, found.as_ref(), line)
    }

    /// The listing by the proved program.
    pub fn listing(&self, plan: &Accepted, programs: &Programs) -> Found<Vec<u8>> {
        programs.output_on("run", &[(PLAN, &plan.plan.text), (RUN, &self.text)])
    }
}

/// Everything that is shown of a run.
pub fn followed(plan: &Accepted, file: &RunFile, programs: &Programs) -> Outcome<Run> {
    let header = *plan.header();
    let [nodes, sensors, actuators] =
        [header[1], header[4], header[5]].map(|number| number as usize);
    let listed = listing::read(&file.listing(plan, programs)?, actuators);
    let count = listed.frames.len();
    let quiet = runs::without_faults(&file.text, sensors, count);
    let quiet = programs.output_on("run", &[(PLAN, &plan.plan.text), (RUN, &quiet)])?;
    let quiet = listing::read(&quiet, actuators);
    let lines = runs::lines(&file.text, sensors);
    let masks: Vec<u64> = lines.into_iter().take(count).map(|line| line[0]).collect();
    let states = listing::states(masks.iter().copied(), nodes, plan.period);
    let run = Run {
        header,
        period: plan.period,
        faults: listing::faults(&states, nodes),
        promise_end: listing::promise_end(&listed.frames, nodes),
        masks,
        states,
        frames: listed.frames,
        without_faults: quiet.frames,
        refusal: listed.refusal,
    };
    match run.is_listed() {
        true => Ok(run),
        false => Err(Stop::Unable(format!(
            "what is shown of {} would not be what the proved program listed; print the listing itself with ./ragbasalt run",
            file.file
        ))),
    }
}
