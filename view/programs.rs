//! The proved programs: proved and built where they are missing or older than their sources, and
//! run on the files they are given.

use std::collections::BTreeSet;
use std::fs;
use std::io::{BufRead, BufReader, Write};
use std::path::{Path, PathBuf};
use std::process::{Command, Stdio};
use std::sync::atomic::{AtomicUsize, Ordering};
use std::sync::Mutex;
use std::time::SystemTime;

use super::cause::Refusal;

/// Something is not as it has to be for the verb: one line that says what, and what to do.
pub struct Unable(pub String);

pub type Found<T> = Result<T, Unable>;

/// A line for the person at the terminal; where it cannot be written nothing is lost.
pub fn say(words: &str) {
    let _ = writeln!(std::io::stderr(), "ragbasalt: {words}");
}

pub fn unable<T>(says: impl Into<String>) -> Found<T> {
    Err(Unable(says.into()))
}

/// What a proved program gives for a plan.
pub enum Checked {
    /// The recovery period.
    Accepted(usize),
    Refused(Refusal),
}

pub struct Programs {
    root: PathBuf,
    /// Those that were found to be newer than their sources.
    built: Mutex<BTreeSet<String>>,
}

/// Where the prover's output goes, below the repository's folder.
const LOG: &str = "target/prove.log";

/// A command that calls rt, with rt's scratch files in memory where that is possible. Some of its lines go to its standard error.
const PROVE: &str = r#"folder=$(bash .ci/scratch 2>/dev/null)
[ -z "$folder" ] || { export TMPDIR="$folder"; trap 'rm -rf "$folder"' EXIT; }
"$@" 2>&1"#;

const LIBRARY: &str = "target/staticlib/libragbasalt.a";

/// What the crates of the library's calls begin with.
const FAMILY: &str = "ragbasalt_";

/// The newest change of a source of the crates.
fn newest(folder: &Path) -> Option<SystemTime> {
    let mut times = Vec::new();
    for entry in fs::read_dir(folder).ok()?.flatten() {
        let path = entry.path();
        let source = path.extension().is_some_and(|end| end == "rt" || end == "antt");
        match entry.file_type() {
            // out/ has what rt made.
            Ok(kind) if kind.is_dir() && path.ends_with("out") => {}
            Ok(kind) if kind.is_dir() => times.extend(newest(&path)),
            Ok(_) if source => times.extend(entry.metadata().and_then(|data| data.modified())),
            _ => {}
        }
    }
    times.into_iter().max()
}

/// A name for a folder that no other call has, of this process or another.
fn scratch() -> PathBuf {
    static NEXT: AtomicUsize = AtomicUsize::new(0);
    let number = NEXT.fetch_add(1, Ordering::Relaxed);
    let time = SystemTime::now().duration_since(SystemTime::UNIX_EPOCH).unwrap_or_default();
    let name = format!("ragbasalt-{}-{}-{number}", std::process::id(), time.as_nanos());
    std::env::temp_dir().join(name)
}

/// What a line of rt says of a crate.
fn crate_line(line: &str) -> Option<(&str, &str)> {
    let (name, what) = line.strip_prefix("rt: ")?.split_once(' ')?;
    if what.starts_with("proved (unchanged") {
        return Some((name, "unchanged"));
    }
    if what.starts_with("proved (") {
        return Some((name, what));
    }
    (what.starts_with("NOT PROVED") || what.contains("FAILED")).then_some((name, "failed"))
}

impl Programs {
    pub fn new(root: &Path) -> Programs {
        // Programs run in other folders, so the path must not be relative.
        let root = root.canonicalize().unwrap_or_else(|_| root.to_path_buf());
        Programs { root, built: Mutex::default() }
    }

    pub fn root(&self) -> &Path {
        &self.root
    }

    fn path(&self, name: &str) -> PathBuf {
        self.root.join("target/bin").join(name)
    }

    /// Whether a file that was built is newer than every source.
    fn is_fresh(&self, built: &Path) -> bool {
        let modified = |path: &Path| fs::metadata(path).and_then(|data| data.modified()).ok();
        let sources =
            newest(&self.root.join("crates")).max(modified(&self.root.join("crates.txt")));
        modified(built).is_some_and(|time| Some(time) >= sources)
    }

    fn list(&self) -> String {
        fs::read_to_string(self.root.join("crates.txt")).unwrap_or_default()
    }

    /// The crates that a crate lies above, itself among them, by crates.txt.
    fn crates(&self, names: &[&str]) -> BTreeSet<String> {
        let list = self.list();
        let below = |name: &str| {
            let line = list.lines().find_map(|line| {
                let rest = line.strip_prefix(name)?;
                rest.strip_prefix(" staticlib").unwrap_or(rest).strip_prefix(':')
            });
            let listed = line.and_then(|rest| rest.split('#').next());
            listed.map(|rest| rest.split_whitespace().map(String::from).collect::<Vec<_>>())
        };
        let mut found = BTreeSet::new();
        let mut left: Vec<String> = names.iter().map(|name| String::from(*name)).collect();
        while let Some(name) = left.pop() {
            if let (false, Some(below)) = (found.contains(&name), below(&name)) {
                left.extend(below);
                found.insert(name);
            }
        }
        found
    }

    /// Runs a command that calls rt for these crates, and shows a line for each crate; what rt prints
    /// goes to the log.
    fn prove(&self, command: &[&str], names: &[&str]) -> Found<()> {
        let count = self.crates(names).len();
        let cannot = |what: String| {
            Unable(format!("{what}; the programs are proved and built by rt, the command of the Rattle toolchain"))
        };
        fs::create_dir_all(self.root.join("target"))
            .map_err(|error| cannot(format!("target/ cannot be made: {error}")))?;
        let mut log = fs::File::create(self.root.join(LOG))
            .map_err(|error| cannot(format!("{LOG} cannot be written: {error}")))?;
        let mut rt = Command::new("sh")
            .args(["-c", PROVE, "prove"])
            .args(command)
            .current_dir(&self.root)
            .stdin(Stdio::null())
            .stdout(Stdio::piped())
            .spawn()
            .map_err(|error| cannot(format!("rt cannot be run: {error}")))?;
        let output = BufReader::new(rt.stdout.take().expect("a pipe"));
        let (mut done, mut failed) = (BTreeSet::new(), None);
        for line in output.split(b'\n').map_while(Result::ok) {
            let line = String::from_utf8_lossy(&line).into_owned();
            let _ = writeln!(log, "{line}");
            match crate_line(&line) {
                Some((_, "failed")) if failed.is_some() => {}
                Some((name, "failed")) => failed = Some(String::from(name)),
                // Of several calls of rt the later ones find what the first has proved.
                Some((name, what)) => {
                    let new = done.insert(String::from(name));
                    if new && what != "unchanged" {
                        let done = done.len();
                        say(&format!("{done:>2} of {count} {name} {what}, log {LOG}"));
                    }
                }
                None => {}
            }
        }
        let ended = rt.wait().map_err(|error| cannot(format!("rt cannot be run: {error}")))?;
        match (ended.code(), failed) {
            (Some(0), _) => Ok(()),
            (Some(127), _) => Err(cannot(String::from("rt is not here"))),
            (_, Some(name)) => unable(format!("{name} is not proved; {LOG} has why")),
            (_, None) => unable(format!("{} failed; {LOG} has why", command[..2].join(" "))),
        }
    }

    /// Proves and builds the programs that are missing or older than a source.
    pub fn build(&self, names: &[&str]) -> Found<()> {
        let mut built = self.built.lock().unwrap();
        if names.iter().all(|name| built.contains(*name) || self.is_fresh(&self.path(name))) {
            built.extend(names.iter().map(|name| String::from(*name)));
            return Ok(());
        }
        say("proving and building the program; from nothing this takes some minutes");
        let now = SystemTime::now();
        self.prove(&[&["bash", ".ci/prove"], names].concat(), names)?;
        // A program is left alone whose sources are the same though newer. A source that was saved
        // meanwhile is newer still.
        for name in names {
            let touched = fs::File::open(self.path(name)).and_then(|file| file.set_modified(now));
            touched
                .map_err(|error| Unable(format!("target/bin/{name} cannot be opened: {error}")))?;
        }
        Ok(())
    }

    /// The library for C and Rust: its path below the repository's folder.
    pub fn library(&self) -> Found<&'static str> {
        if !self.is_fresh(&self.root.join(LIBRARY)) {
            say("proving and building the library; from nothing this takes some minutes");
            let list = self.list();
            let names = list.lines().filter_map(|line| line.split([':', ' ']).next());
            let families: Vec<&str> = names.filter(|name| name.starts_with(FAMILY)).collect();
            self.prove(&["bash", ".ci/library"], &families)?;
        }
        Ok(LIBRARY)
    }

    /// What a program prints in a folder.
    pub fn output(&self, name: &str, folder: &Path) -> Found<Vec<u8>> {
        self.build(&[name])?;
        let cannot = |what: String| {
            Unable(format!("target/bin/{name} {what}; take it away, and it is built anew"))
        };
        let output = Command::new(self.path(name))
            .current_dir(folder)
            .stdin(Stdio::null())
            .stderr(Stdio::inherit())
            .output()
            .map_err(|error| cannot(format!("cannot be run: {error}")))?;
        match output.status.success() {
            true => Ok(output.stdout),
            false => Err(cannot(format!("ended with {}", output.status))),
        }
    }

    /// What a program prints for these files, which are written to a folder of their own.
    pub fn output_on(&self, name: &str, files: &[(&str, &[u8])]) -> Found<Vec<u8>> {
        let folder = scratch();
        let written = fs::create_dir(&folder).and_then(|()| {
            files.iter().try_for_each(|(file, bytes)| fs::write(folder.join(file), bytes))
        });
        let output = match written {
            Ok(()) => self.output(name, &folder),
            Err(error) => unable(format!("{} cannot be written: {error}", folder.display())),
        };
        let _ = fs::remove_dir_all(&folder);
        output
    }

    /// The recovery period of a plan text, or its refusal, by the proved program.
    pub fn check(&self, plan: &[u8]) -> Found<Checked> {
        let output = self.output_on("plan_check", &[("plan.txt", plan)])?;
        if let Some(refusal) = refusal(&output) {
            return Ok(Checked::Refused(refusal));
        }
        let text = String::from_utf8_lossy(&output);
        match text.trim().parse() {
            Ok(period) => Ok(Checked::Accepted(period)),
            Err(_) => {
                unable("target/bin/plan_check prints no number; take it away, and it is built anew")
            }
        }
    }
}

/// The refusal that a listing ends with, if it does. "A refusal prints number (4) and line (8)". A
/// frame's line and that of R have another length; a history's has the same, and two numbers where
/// a refusal has its line.
pub fn refusal(listing: &[u8]) -> Option<Refusal> {
    let line = listing.strip_suffix(b"\n")?;
    let line = line.rsplit(|&byte| byte == b'\n').next()?;
    let number = |part: &[u8]| std::str::from_utf8(part).ok()?.trim().parse().ok();
    match line.len() {
        12 => Some(Refusal { number: number(&line[..4])?, line: number(&line[4..])? as usize }),
        _ => None,
    }
}
