//! Tests of view/, what stands around the proved programs for people. The cases are those of
//! tests/reference, the refusals those of the proved programs. See README.md.

#[allow(dead_code)]
#[path = "../reference/cases.rs"]
mod cases;
#[allow(dead_code)]
#[path = "../reference/damage.rs"]
mod damage;
#[allow(dead_code)]
#[path = "../reference/frame.rs"]
mod frame;
#[allow(dead_code)]
#[path = "../reference/generate.rs"]
mod generate;
#[allow(dead_code)]
#[path = "../reference/listing.rs"]
mod listing;
#[allow(dead_code)]
#[path = "../reference/plan.rs"]
mod plan;
#[allow(dead_code)]
#[path = "../reference/random.rs"]
mod random;

#[allow(dead_code)]
#[path = "../../view"]
mod view {
    pub mod cause;
    pub mod folder;
    pub mod listing;
    pub mod named;
    pub mod names;
    pub mod pattern;
    pub mod picture;
    pub mod programs;
    pub mod runs;
    pub mod show;
    pub mod text;
    pub mod words;
}

mod forms;
mod pictures;
mod promise;
mod refusals;
mod tables;
mod verbs;
mod words;

use std::path::{Path, PathBuf};
use std::process::ExitCode;
use std::sync::atomic::{AtomicU64, Ordering};
use std::sync::Mutex;

use view::programs::Programs;

/// The repository and its proved programs.
pub struct Tree {
    pub root: PathBuf,
    pub programs: Programs,
}

/// What was tested, in a line, or the first difference.
pub type Tested = Result<String, String>;

const WORKERS: usize = 2;

/// Tries the cases of seeds from 0 up to, not including, `count`; gives what they add up to.
pub fn each<T: Default + Send>(
    count: u64,
    one: impl Fn(u64, &mut T) -> Result<(), String> + Sync,
    add: impl Fn(&mut T, T),
) -> Result<T, String> {
    let (next, failed) = (AtomicU64::new(0), Mutex::new(None));
    let totals = Mutex::new(Vec::new());
    let work = || {
        let mut total = T::default();
        loop {
            let seed = next.fetch_add(1, Ordering::Relaxed);
            if seed >= count || failed.lock().unwrap().is_some() {
                break;
            }
            if let Err(report) = one(seed, &mut total) {
                failed.lock().unwrap().get_or_insert(format!("seed {seed}: {report}"));
            }
        }
        totals.lock().unwrap().push(total);
    };
    std::thread::scope(|scope| (0..WORKERS).for_each(|_| drop(scope.spawn(work))));
    match failed.into_inner().unwrap() {
        Some(report) => Err(report),
        None => {
            let mut sum = T::default();
            totals.into_inner().unwrap().into_iter().for_each(|total| add(&mut sum, total));
            Ok(sum)
        }
    }
}

/// Fails with a report unless the two are the same.
pub fn same<T: PartialEq + std::fmt::Debug>(what: &str, got: T, wanted: T) -> Result<(), String> {
    match got == wanted {
        true => Ok(()),
        false => Err(format!("{what}\n  got    {got:?}\n  wanted {wanted:?}")),
    }
}

fn main() -> ExitCode {
    let root = std::env::args().nth(1).unwrap_or_else(|| String::from("."));
    let root = Path::new(&root).canonicalize().expect("the repository's folder");
    let tree = &Tree { programs: Programs::new(&root), root };
    let tests: [(&str, fn(&Tree) -> Tested); 11] = [
        ("values", |_| forms::values()),
        ("plans by name", forms::plans),
        ("runs by name", forms::runs),
        ("docs/NAMED.md", forms::page),
        ("damaged named files", forms::damaged),
        ("words of refusals", words::table),
        ("refusals", refusals::all),
        ("tables", tables::all),
        ("pictures", pictures::all),
        ("promise", promise::all),
        ("verbs", verbs::all),
    ];
    for (name, test) in tests {
        match test(tree) {
            Ok(words) => println!("view: {name}: {words}"),
            Err(report) => {
                println!("view: {name}: {report}");
                return ExitCode::FAILURE;
            }
        }
    }
    ExitCode::SUCCESS
}
