//! What stands around the proved programs for people: verbs, words for refusals, plans and runs by
//! name, a table and a picture of a run. Nothing here is proved and nothing here makes a setpoint:
//! every listing, period, history and refusal comes from a proved program.

mod cause;
mod folder;
mod listing;
mod named;
mod names;
mod pattern;
mod picture;
mod programs;
mod runs;
mod show;
mod text;
mod words;

use std::fs;
use std::io::{self, ErrorKind, Write};
use std::path::{Path, PathBuf};
use std::process::ExitCode;

use folder::{Accepted, Outcome, RunFile, Stop, PLAN};
use programs::{refusal, say, Programs};

/// The verbs: their forms, and what they do.
const VERBS: [(&str, &str); 8] = [
    (
        "run [FOLDER]",
        "print the listing of FOLDER/plan.txt and FOLDER/run.txt; so does ./ragbasalt [FOLDER]",
    ),
    (
        "check PLAN",
        "say whether a plan is accepted and its recovery period R, or why it is refused",
    ),
    (
        "plan FILE [RUN]",
        "print the plan text of the named plan FILE, or with RUN the run text of a named run",
    ),
    ("text PLAN [RUN]", "print the named form of a plan text, or with RUN that of a run text"),
    (
        "show [FOLDER] [--all]",
        "print the run as a table for people; --all: each frame of a long run in a row of its own",
    ),
    (
        "picture [FOLDER] [FILE]",
        "draw the run as an SVG picture, FOLDER/picture.svg or FILE (-: print it)",
    ),
    (
        "histories [PLAN]",
        "print the fault histories of three frames that the press must live through",
    ),
    ("library", "build the library for C and Rust"),
];

const ABOUT: &str = "FOLDER is examples/k where none is named; one without plan.txt or run.txt may have plan.named or run.named.
A PLAN is a plan text, a named plan (*.named), or a folder with either. docs/NAMED.md tells how plans and runs are
written by name. The exit status is 1 where a plan, a run line or a named file is refused, 2 where something is missing.
";

/// The line of a verb, or of all.
fn usage(verb: Option<&str>) -> String {
    let chosen =
        |(form, _): &&(&str, &str)| verb.is_none_or(|verb| form.split(' ').next() == Some(verb));
    let line = |(form, does): &(&str, &str)| format!("  {form:<25}{does}\n");
    VERBS.iter().filter(chosen).map(line).collect()
}

/// Prints. A reader that has seen enough is no error.
fn print(bytes: &[u8]) -> Outcome<()> {
    let mut out = io::stdout().lock();
    match out.write_all(bytes).and_then(|()| out.flush()) {
        Err(error) if error.kind() != ErrorKind::BrokenPipe => {
            Err(Stop::Unable(format!("the output cannot be written ({error}); it is not whole")))
        }
        _ => Ok(()),
    }
}

struct Tool {
    programs: Programs,
}

impl Tool {
    fn path(&self, path: Option<&str>) -> PathBuf {
        path.map_or_else(|| self.programs.root().join("examples/k"), PathBuf::from)
    }

    /// The plan of a folder and its run, as the proved program accepted the one.
    fn files(&self, folder: &Path) -> Outcome<(Accepted, RunFile)> {
        self.programs.build(&["run", "plan_check"])?;
        let plan = folder::plan(folder)?.accepted(&self.programs)?;
        let run = folder::run(folder, &plan)?;
        Ok((plan, run))
    }

    /// The listing, byte for byte as the proved program prints it; then the words of a refusal.
    fn run(&self, path: Option<&str>) -> Outcome<()> {
        let folder = folder::folder(&self.path(path))?;
        match self.files(&folder) {
            Ok((plan, run)) => {
                let listing = run.listing(&plan, &self.programs)?;
                print(&listing)?;
                unless_refused(refusal(&listing).map(|refused| run.report(refused, &plan)))
            }
            Err(Stop::Refused(report)) => {
                // "With a refused plan the run file is not looked at."
                if let Ok(text) = fs::read(folder.join(PLAN)) {
                    print(&self.programs.output_on("run", &[(PLAN, &text)])?)?;
                }
                Err(Stop::Refused(report))
            }
            Err(stop) => Err(stop),
        }
    }

    /// The answer that was asked for, so a refusal is printed as one.
    fn check(&self, path: &str) -> Outcome<()> {
        let plan = folder::plan(Path::new(path)).and_then(|plan| plan.accepted(&self.programs));
        match plan {
            Ok(plan) => {
                print(format!("accepted: {}\n", show::sizes(plan.header(), plan.period)).as_bytes())
            }
            Err(Stop::Refused(report)) => {
                print(report.as_bytes()).and(Err(Stop::Refused(String::new())))
            }
            Err(stop) => Err(stop),
        }
    }

    fn plan(&self, path: &str, run: Option<&str>) -> Outcome<()> {
        let path = Path::new(path);
        let Some(run) = run else {
            let plan = folder::named_plan(path)?.accepted(&self.programs)?;
            return print(&plan.plan.text);
        };
        let plan = folder::plan(path)?.accepted(&self.programs)?;
        let run = folder::named_run(Path::new(run), &plan)?;
        self.accepted_run(&plan, &run)?;
        print(&run.text)
    }

    fn text(&self, path: &str, run: Option<&str>) -> Outcome<()> {
        let plan = folder::plan(Path::new(path))?;
        if plan.is_named() {
            return Err(Stop::Unable(format!(
                "{} is a named plan already; ./ragbasalt plan gives its text",
                plan.file
            )));
        }
        let plan = plan.accepted(&self.programs)?;
        let Some(run) = run else {
            return print(named::write(&plan.rows, &plan.names).as_bytes());
        };
        let run = folder::run_text(Path::new(run))?;
        self.accepted_run(&plan, &run)?;
        let lines = runs::lines(&run.text, plan.header()[4] as usize);
        print(runs::write(&lines, &plan.names).as_bytes())
    }

    /// Whether the proved program takes every line of a run.
    fn accepted_run(&self, plan: &Accepted, run: &RunFile) -> Outcome<()> {
        let listing = run.listing(plan, &self.programs)?;
        unless_refused(refusal(&listing).map(|refused| run.report(refused, plan)))
    }

    fn show(&self, path: Option<&str>, all: bool) -> Outcome<()> {
        let folder = folder::folder(&self.path(path))?;
        let (plan, file) = self.files(&folder)?;
        let run = folder::followed(&plan, &file, &self.programs)?;
        print(show::table(&run, &plan.names, all).as_bytes())?;
        unless_refused(run.refusal.map(|refused| file.report(refused, &plan)))
    }

    fn picture(&self, path: Option<&str>, place: Option<&str>) -> Outcome<()> {
        let folder = folder::folder(&self.path(path))?;
        let (plan, file) = self.files(&folder)?;
        let run = folder::followed(&plan, &file, &self.programs)?;
        let whole = folder.canonicalize().unwrap_or_else(|_| folder.clone());
        let name = whole.file_name().unwrap_or_default().to_string_lossy();
        let picture = picture::svg(&run, &plan.names, &name);
        if place == Some("-") {
            print(picture.as_bytes())?;
        } else {
            let place = place.map_or_else(|| folder.join("picture.svg"), PathBuf::from);
            let shown = place.display();
            fs::write(&place, picture).map_err(|error| {
                Stop::Unable(format!(
                    "{shown} cannot be written ({error}); name another file behind the folder"
                ))
            })?;
            print(format!("{shown}\n").as_bytes())?;
        }
        unless_refused(run.refusal.map(|refused| file.report(refused, &plan)))
    }

    fn histories(&self, path: Option<&str>) -> Outcome<()> {
        let mut plan = folder::plan(&self.path(path))?;
        if plan.is_named() {
            plan = plan.accepted(&self.programs)?.plan;
        }
        let listing = self.programs.output_on("histories", &[(PLAN, &plan.text)])?;
        print(&listing)?;
        unless_refused(refusal(&listing).map(|refused| plan.report(refused)))
    }

    fn library(&self) -> Outcome<()> {
        let library = self.programs.library()?;
        let root = self.programs.root();
        let here = std::env::current_dir().is_ok_and(|folder| folder == root);
        let root = if here { Path::new("") } else { root };
        let (library, include) = (root.join(library), root.join("include"));
        let (library, include) = (library.display(), include.display());
        let build = format!("to build with it: cc -I{include} -o PROGRAM PROGRAM.c {library}");
        print(format!("{library}\n{include}/ragbasalt.h\n{build}\n").as_bytes())
    }

    fn verb(&self, arguments: &[&str]) -> Outcome<()> {
        match *arguments {
            ["help" | "--help" | "-h"] => print(
                format!("usage: ./ragbasalt VERB [ARGUMENTS]\n{}{ABOUT}", usage(None)).as_bytes(),
            ),
            ["help", verb] | [verb, "--help" | "-h"] if is_verb(verb) => {
                print(usage(Some(verb)).as_bytes())
            }
            ["show", "--all"] => self.show(None, true),
            ["show", folder, "--all"] | ["show", "--all", folder] => self.show(Some(folder), true),
            [verb, ref rest @ ..]
                if is_verb(verb) && rest.iter().any(|word| word.starts_with("--")) =>
            {
                form(verb)
            }
            [] | ["run"] => self.run(None),
            ["run", folder] => self.run(Some(folder)),
            ["check", plan] => self.check(plan),
            ["plan", file] => self.plan(file, None),
            ["plan", file, run] => self.plan(file, Some(run)),
            ["text", plan] => self.text(plan, None),
            ["text", plan, run] => self.text(plan, Some(run)),
            ["show"] => self.show(None, false),
            ["show", folder] => self.show(Some(folder), false),
            ["picture"] => self.picture(None, None),
            ["picture", folder] => self.picture(Some(folder), None),
            ["picture", folder, file] => self.picture(Some(folder), Some(file)),
            ["histories"] => self.histories(None),
            ["histories", plan] => self.histories(Some(plan)),
            ["library"] => self.library(),
            [verb, ..] if is_verb(verb) => form(verb),
            [folder] if Path::new(folder).is_dir() => self.run(Some(folder)),
            [first, ..] => {
                let what = if Path::new(first).is_dir() {
                    "comes before its verb"
                } else {
                    "is neither a verb nor a folder"
                };
                Err(Stop::Unable(format!("'{first}' {what}; ./ragbasalt help lists the verbs")))
            }
        }
    }
}

fn is_verb(word: &str) -> bool {
    VERBS.iter().any(|(form, _)| form.split(' ').next() == Some(word))
}

fn form(verb: &str) -> Outcome<()> {
    let found = VERBS.iter().find(|(form, _)| form.split(' ').next() == Some(verb));
    let form = found.map_or(verb, |(form, _)| form);
    Err(Stop::Unable(format!("the form is: ./ragbasalt {form}")))
}

/// A report of a refusal, if there is one, is what the verb ends with.
fn unless_refused(report: Option<String>) -> Outcome<()> {
    report.map_or(Ok(()), |report| Err(Stop::Refused(report)))
}

fn main() -> ExitCode {
    let arguments = std::env::args_os().skip(1).map(|word| word.to_string_lossy().into_owned());
    let arguments: Vec<String> = arguments.collect();
    let arguments: Vec<&str> = arguments.iter().map(String::as_str).collect();
    // The repository's folder comes first: ./ragbasalt puts it there.
    let [root, ref arguments @ ..] = arguments[..] else {
        say("call ./ragbasalt in the repository's folder");
        return ExitCode::from(2);
    };
    let tool = Tool { programs: Programs::new(Path::new(root)) };
    match tool.verb(arguments) {
        Ok(()) => ExitCode::SUCCESS,
        Err(Stop::Refused(report)) => {
            let _ = io::stderr().write_all(report.as_bytes());
            ExitCode::from(1)
        }
        Err(Stop::Unable(what)) => {
            say(&what);
            ExitCode::from(2)
        }
    }
}
