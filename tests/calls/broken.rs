//! The test of the test: references with one error each, which the comparison has to see.
//!
//! Each file `broken/*.edit` is a comment, a file below the folder of the tests, and texts of it
//! with what they become (`\n` is a line feed); `mode: --cards` where lists of calls on a card have
//! to show it. A copy with the edit made is built and run. Each worker has one copy for all its
//! edits, so that rustc builds anew only what an edit changes.

use std::fs;
use std::io;
use std::path::{Path, PathBuf};
use std::process::Command;
use std::sync::atomic::{AtomicUsize, Ordering};
use std::sync::Mutex;

const WORKERS: usize = 2;
/// The calls that an error has to be seen in.
const CALLS: &str = "20000";

/// A copy of the tests, and what they are built with.
struct Worker<'a> {
    tests: &'a Path,
    library: &'a str,
    folder: PathBuf,
}

impl Worker<'_> {
    fn copy(&self) -> io::Result<()> {
        if self.folder.exists() {
            fs::remove_dir_all(&self.folder)?;
        }
        for part in ["reference", "calls"] {
            fs::create_dir_all(self.folder.join(part))?;
            for entry in fs::read_dir(self.tests.join(part))? {
                let path = entry?.path();
                if path.extension().is_some_and(|extension| extension == "rs") {
                    let name = path.file_name().unwrap_or_default();
                    fs::copy(&path, self.folder.join(part).join(name))?;
                }
            }
        }
        Ok(())
    }

    /// Makes an edit, builds and runs, and takes the edit back; gives the first line of the
    /// difference that was seen.
    fn difference(&self, edit: &Path) -> io::Result<Option<String>> {
        let edit = fs::read_to_string(edit)?;
        let value =
            |line: &str, key: &str| line.strip_prefix(key).map(|text| text.replace("\\n", "\n"));
        let file = edit.lines().find_map(|line| value(line, "file: "));
        let file = file.ok_or_else(|| io::Error::other("an edit without a file"))?;
        let right = fs::read_to_string(self.tests.join(&file))?;
        let mut text = right.clone();
        let old = edit.lines().filter_map(|line| value(line, "old: "));
        let new = edit.lines().filter_map(|line| value(line, "new: "));
        for (old, new) in old.zip(new) {
            if text.matches(&old).count() != 1 {
                return Err(io::Error::other(format!("{file} has not just one {old:?}")));
            }
            text = text.replace(&old, &new);
        }
        fs::write(self.folder.join(&file), text)?;
        let seen = self.run(edit.lines().find_map(|line| value(line, "mode: ")));
        fs::write(self.folder.join(&file), right)?;
        seen
    }

    fn run(&self, mode: Option<String>) -> io::Result<Option<String>> {
        let program = self.folder.join("program");
        let incremental = format!("incremental={}", self.folder.join("built").display());
        let build = Command::new("rustc")
            .args(["--edition", "2021", "-A", "warnings", "-C", &incremental])
            .args(["-L", self.library, "-o"])
            .args([&program, &self.folder.join("calls").join("main.rs")])
            .status()?;
        if !build.success() {
            return Err(io::Error::other("it does not build"));
        }
        let output = Command::new(&program).args(mode).arg(CALLS).output()?;
        let printed = String::from_utf8_lossy(&output.stdout).into_owned();
        let first = printed.lines().next().unwrap_or_default();
        let seen = output.status.code() == Some(1) && first.ends_with(": a difference");
        Ok(seen.then(|| format!("{first} ({})", printed.lines().nth(1).unwrap_or_default())))
    }
}

fn edits(tests: &Path) -> io::Result<Vec<PathBuf>> {
    let entries = fs::read_dir(tests.join("calls").join("broken"))?;
    let mut edits = entries.map(|entry| Ok(entry?.path())).collect::<io::Result<Vec<_>>>()?;
    edits.sort();
    Ok(edits)
}

/// True if a difference was seen with each broken reference.
pub fn run(tests: &str, library: &str, work: &str) -> bool {
    let tests = Path::new(tests);
    let edits = match edits(tests) {
        Ok(edits) => edits,
        Err(error) => {
            println!("broken: no edits: {error}");
            return false;
        }
    };
    let next = AtomicUsize::new(0);
    let reports = Mutex::new(vec![None; edits.len()]);
    let work_on = |number: usize| {
        let folder = Path::new(work).join(format!("worker-{number}"));
        let worker = Worker { tests, library, folder };
        let made = worker.copy();
        loop {
            let number = next.fetch_add(1, Ordering::Relaxed);
            let Some(edit) = edits.get(number) else { break };
            let made = made.as_ref().map_err(|error| error.to_string());
            let seen =
                made.and_then(|_| worker.difference(edit).map_err(|error| error.to_string()));
            let report = seen.and_then(|seen| seen.ok_or(String::from("NO DIFFERENCE SEEN")));
            reports.lock().unwrap()[number] = Some(report);
        }
        let _ = fs::remove_dir_all(&worker.folder);
    };
    std::thread::scope(|scope| {
        (0..WORKERS).for_each(|number| drop(scope.spawn(move || work_on(number))));
    });
    let mut seen = 0;
    for (edit, report) in edits.iter().zip(reports.into_inner().unwrap().into_iter().flatten()) {
        let name = edit.file_stem().unwrap_or_default().to_string_lossy().into_owned();
        seen += usize::from(report.is_ok());
        println!("{name}: {}", report.unwrap_or_else(|error| error));
    }
    println!("broken: {seen} of {} seen", edits.len());
    seen == edits.len() && seen > 0
}
