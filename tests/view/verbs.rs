//! `./ragbasalt` as a user calls it: what goes where, and the exit status.

use std::fs;
use std::os::unix::fs::symlink;
use std::path::PathBuf;
use std::process::{Command, Stdio};

use super::{same, Tested, Tree};

pub struct Output {
    pub status: i32,
    pub out: String,
    pub errors: String,
}

fn outcome(command: &mut Command) -> Output {
    let output = command.output().expect("a command that can be run");
    let text = |bytes: &[u8]| String::from_utf8_lossy(bytes).into_owned();
    let status = output.status.code().unwrap_or(-1);
    Output { status, out: text(&output.stdout), errors: text(&output.stderr) }
}

fn command(tree: &Tree, arguments: &[&str]) -> Command {
    let mut command = Command::new(tree.root.join("ragbasalt"));
    command.args(arguments).current_dir(&tree.root);
    command
}

pub fn call(tree: &Tree, arguments: &[&str]) -> Output {
    outcome(&mut command(tree, arguments))
}

/// A folder for files of the tests.
struct Work<'a> {
    tree: &'a Tree,
    folder: PathBuf,
}

impl Work<'_> {
    fn at(&self, name: &str) -> String {
        self.folder.join(name).display().to_string()
    }

    fn file(&self, name: &str, bytes: impl AsRef<[u8]>) -> Result<String, String> {
        let path = self.folder.join(name);
        let parent = path.parent().expect("a folder");
        let written = fs::create_dir_all(parent).and_then(|()| fs::write(&path, bytes));
        written.map(|()| self.at(name)).map_err(|error| error.to_string())
    }

    fn example(&self, name: &str) -> Result<String, String> {
        let path = self.tree.root.join("examples").join(name);
        fs::read_to_string(&path).map_err(|error| format!("{}: {error}", path.display()))
    }

    /// Status 0, this output, nothing else.
    fn right(&self, arguments: &[&str], wanted: &str) -> Result<(), String> {
        let output = call(self.tree, arguments);
        let got = (output.status, output.out.as_str(), output.errors.as_str());
        same(&format!("{arguments:?}"), got, (0, wanted, ""))
    }

    /// Status 2: nothing printed, one line of errors that says what and what to do.
    fn stopped(&self, arguments: &[&str], words: &[&str]) -> Result<(), String> {
        let output = call(self.tree, arguments);
        let what = format!("{arguments:?}: {}{}", output.out, output.errors);
        let got = (output.status, output.out.as_str(), output.errors.lines().count());
        same(&what, got, (2, "", 1))?;
        let said = words.iter().all(|word| output.errors.contains(word));
        match said && output.errors.starts_with("ragbasalt: ") {
            true => Ok(()),
            false => Err(format!("{what} does not say {words:?}")),
        }
    }

    /// Status 1: this output, and among the errors these words.
    fn refused(&self, arguments: &[&str], out: &str, words: &str) -> Result<(), String> {
        let output = call(self.tree, arguments);
        let what = format!("{arguments:?}: {}{} does not say {words}", output.out, output.errors);
        let got = (output.status, output.out.as_str(), output.errors.contains(words));
        same(&what, got, (1, out, true))
    }
}

fn everything_right(work: &Work) -> Result<(), String> {
    let listing = work.example("k/listing.txt")?;
    for arguments in [&["run", "examples/k"][..], &["examples/k"], &["examples/k/"], &["run"], &[]]
    {
        work.right(arguments, &listing)?;
    }
    let accepted = "accepted: 5 nodes, 2 frames, 13 cells, R = 3\n";
    work.right(&["check", "examples/press/plan.txt"], accepted)?;
    work.right(&["check", "examples/press/plan.named"], accepted)?;
    work.right(&["check", "examples/press"], accepted)?;
    let histories = work.example("k/histories.txt")?;
    for arguments in
        [&["histories", "examples/k/plan.txt"][..], &["histories", "examples/k"], &["histories"]]
    {
        work.right(arguments, &histories)?;
    }
    work.right(&["histories", "examples/numbering"], &work.example("numbering/histories.txt")?)?;
    work.right(&["plan", "examples/press/plan.named"], &work.example("press/plan.txt")?)?;
    let run = work.example("press/run.txt")?;
    work.right(&["plan", "examples/press/plan.named", "examples/press/run.named"], &run)?;
    work.right(&["plan", "examples/press/plan.txt", "examples/press/run.named"], &run)?;
    // Known names, and made-up ones.
    let text = call(work.tree, &["text", "examples/numbering"]).out;
    same("known names", text.contains("correct: trim = wind error rate -0.5 cap 0.25\n"), true)?;
    let plan = work.file("bare/plan.txt", work.example("numbering/plan.txt")?)?;
    let text = call(work.tree, &["text", &plan]).out;
    same("made-up names", text.contains("0: c2 = wind c1 rate -0.5 cap 0.25\n"), true)?;
    let text = call(work.tree, &["text", &plan, "examples/numbering/run.txt"]).out;
    same(
        "a run",
        text.starts_with("fill 0\nsensors  s0     s1\n         10      0  times 2\n"),
        true,
    )?;
    // A picture to a file of the user's, to its own place, and printed.
    let press = work.example("press/picture.svg")?;
    let place = work.at("bare/press.svg");
    work.right(&["picture", "examples/press", &place], &format!("{place}\n"))?;
    same("the picture", fs::read_to_string(&place).ok(), Some(press.clone()))?;
    work.right(&["picture", "examples/press", "-"], &press)?;
    work.file("bare/run.txt", work.example("numbering/run.txt")?)?;
    work.right(&["picture", &work.at("bare")], &format!("{}\n", work.at("bare/picture.svg")))?;
    same(
        "its title",
        fs::read_to_string(work.at("bare/picture.svg"))
            .is_ok_and(|picture| picture.contains("<title>bare</title>")),
        true,
    )?;
    // A long run: rows of several frames, or each frame.
    let long = ["show", "tests/listings/small"];
    let rows = |output: &Output| output.out.lines().count();
    let (some, all) = (call(work.tree, &long), call(work.tree, &["show", "--all", long[1]]));
    same("show --all", (rows(&all) > 2000, rows(&some) < 1500), (true, true))?;
    same("show --all", call(work.tree, &["show", long[1], "--all"]).out, all.out)?;
    let help = call(work.tree, &["help"]);
    for verb in ["run", "check", "plan", "text", "show", "picture", "histories", "library"] {
        let own = |line: &&str| line.starts_with(&format!("  {verb}"));
        let lines: Vec<&str> = help.out.lines().filter(own).collect();
        same(&format!("usage of {verb}"), (help.status, lines.len()), (0, 1))?;
        work.right(&[verb, "--help"], &format!("{}\n", lines[0]))?;
        work.right(&["help", verb], &format!("{}\n", lines[0]))?;
    }
    Ok(())
}

fn missing_things(work: &Work) -> Result<(), String> {
    work.stopped(&["run", "nowhere"], &["nowhere", "folder"])?;
    work.stopped(&["nowhere"], &["nowhere", "verb", "help"])?;
    work.stopped(&["chekc", "examples/k"], &["chekc", "help"])?;
    work.stopped(&["examples/k", "show"], &["comes before its verb", "help"])?;
    work.stopped(&["FOLDER"], &["neither a verb nor a folder"])?;
    work.stopped(&["check"], &["check PLAN"])?;
    work.stopped(&["check", "examples/k", "more"], &["check PLAN"])?;
    work.stopped(&["picture", "examples/k", "--all"], &["picture [FOLDER] [FILE]"])?;
    work.stopped(&["check", "nowhere/plan.txt"], &["nowhere/plan.txt", "there is no file"])?;
    work.stopped(&["show", "nowhere"], &["nowhere"])?;
    work.stopped(&["picture", "examples/k", "nowhere/x.svg"], &["nowhere/x.svg"])?;
    work.stopped(&["plan", "examples/k"], &["examples/k", "folder"])?;
    work.stopped(&["histories", "nowhere"], &["nowhere"])?;
    work.stopped(&["plan", "examples/k/plan.txt"], &["is a plan text already", "text"])?;
    work.stopped(&["text", "examples/k/plan.named"], &["is a named plan already", "plan"])?;
    let other = work.file("other/press.plan", work.example("press/plan.named")?)?;
    work.stopped(&["check", &other], &["looks like a named plan", "*.named"])?;
    work.file("lacking/plan.txt", work.example("k/plan.txt")?)?;
    work.stopped(&["run", &work.at("lacking")], &["run.txt", "run.named", "put one there"])?;
    work.file("empty/readme", "")?;
    work.stopped(&["show", &work.at("empty")], &["plan.txt", "plan.named", "put one there"])?;
    work.file("odd/plan.txt/x", "")?;
    work.file("odd/run.txt", "")?;
    work.stopped(&["run", &work.at("odd")], &["plan.txt", "folder"])
}

fn refused_texts(work: &Work) -> Result<(), String> {
    let damaged = work.example("k/plan.txt")?.replacen("  11   1   1   0", "  11   1   1   2", 1);
    let plan = work.file("plan/plan.txt", damaged)?;
    work.file("plan/run.txt", work.example("k/run.txt")?)?;
    let words = "refusal 5: cell a is 2, the plan has 2 cells (0 to 1)";
    let output = call(work.tree, &["check", &plan]);
    let report = format!(
        "{plan}:5: {words}\n  |   11   1   1   2                   1                   0\n  |             ^^^^ column 4, cell a\n  rule: {}\n",
        super::view::cause::rule(5)
    );
    same("check", (output.status, output.out, output.errors), (1, report, String::new()))?;
    work.refused(&["run", &work.at("plan")], "   5       5\n", words)?;
    work.refused(&["histories", &plan], "   5       5\n", words)?;
    for verb in ["text", "show", "picture"] {
        work.refused(&[verb, &work.at("plan")], "", words)?;
    }
    let colon =
        work.file("colon.txt", work.example("k/plan.txt")?.replacen("   0   3", "   0  :3", 1))?;
    let output = call(work.tree, &["check", &colon]);
    same(
        "a colon",
        (output.status, output.out.contains(":1: refusal 2: nodes has ':' in it")),
        (1, true),
    )?;
    work.file("line/plan.txt", work.example("k/plan.txt")?)?;
    work.file("line/run.txt", work.example("k/run.txt")?.replacen("   4 255", "   8 255", 1))?;
    let words = "run.txt:2: refusal 10: mask is 8, with 3 nodes (0 to 2) a mask is 0 to 7";
    let listing = work.example("k/listing.txt")?;
    let first = listing.split_inclusive('\n').next().unwrap_or_default();
    work.refused(&["run", &work.at("line")], &format!("{first}  10       2\n"), words)?;
    let line = "\n  |    8 255 4607182418800017408\n  | ^^^^ column 1, mask\n  rule: ";
    work.refused(
        &["run", &work.at("line")],
        &format!("{first}  10       2\n"),
        &format!("{words}{line}"),
    )?;
    work.refused(
        &["picture", &work.at("line"), &work.at("line/x.svg")],
        &format!("{}\n", work.at("line/x.svg")),
        words,
    )?;
    work.refused(&["text", &work.at("line"), &work.at("line/run.txt")], "", words)?;
    let output = call(work.tree, &["show", &work.at("line")]);
    let ended = output.out.contains(
        "1 frame run, 0 faults, every setpoint as without faults, ended by refusal 10 of line 2\n",
    );
    same("show", (output.status, output.errors.contains(words), ended), (1, true, true))?;
    work.file("line/run.txt", work.example("k/run.txt")?.replacen("   0 255", "   8 255", 1))?;
    let output = call(work.tree, &["show", &work.at("line")]);
    let ended = output.out.contains("; no frame run, ended by refusal 10 of line 1\n");
    same("show of no frame", (output.status, ended), (1, true))?;
    let words = "refusal 11: histories are listed for plans of at most 5 nodes";
    work.refused(&["histories", "tests/listings/largest/plan.txt"], "  11       0\n", words)
}

/// Errors of named plans and runs, and refusals with their place in them.
fn named_files(work: &Work) -> Result<(), String> {
    let named = work.example("press/plan.named")?;
    for (from, to, words) in [
        ("= sum speed cyan_trim", "= sum speed cyam_trim", "plan.named:22: 'cyam_trim': no cell has this name; is 'cyan_trim' meant?"),
        ("cyan_error rate -0.5 cap 0.25", "cyan_error rate -0.5 cap -0.25", "plan.named:17: '-0.25': refusal 5: cap is -0.25, its sign bit must be 0"),
        ("nodes 5", "nodes 8", "plan.named:3: '8': refusal 3: nodes is 8, a plan has 1 to 7"),
        ("nodes 5", "nodes 99999", "plan.named:3: '99999': the number of nodes is a whole number, 1 to 7"),
        ("nodes 5", "nodes: 5", "plan.named:3: 'nodes': no colon stands behind this word, unless a frame is called so"),
        ("nodes 5\n", "\n", "plan.named: the nodes are missing; write for example: nodes 3"),
        ("nodes 5\n", "nodes 5\nnodes 4\n", "plan.named:4: 'nodes': line 3 has the nodes already"),
        ("frames correct drive", "frames correct drive f0 f1 f2 f3 f4 f5 f6 f7 f8 f9 f10 f11 f12 f13 f14", "plan.named:4: 'correct': refusal 3: frames is 17, a plan has 1 to 16"),
        ("sensors speed", "sensors x0 x1 x2 x3 x4 x5 x6 x7 x8 x9 x10 x11 speed", "plan.named:5: 'x0': refusal 3: sensors is 17, a plan has 1 to 16"),
        ("cell speed\n", "cell speed speed\n", "plan.named:7: 'speed': another cell has this name already"),
        ("= sum speed cyan_trim", "= scale speed 0x7ff0000000000000", "plan.named:22: '0x7ff0000000000000': refusal 5: factor is inf, it must be finite"),
        ("limit cyan 0 25", "limit cyan 26 25", "plan.named:26: '26': refusal 5: low is 26, above high, which is 25"),
        ("correct: speed         = take speed", "7: speed = take speed", "plan.named:12: '7': refusal 5: frame is 7, the plan has 2 frames (0 to 1)"),
        ("limit cyan 0 25", "limit cyan 0", "plan.named:26: 'limit': the form is: limit CELL LOW HIGH"),
        ("limit cyan 0 25", "limit cyan 0 NaN", "plan.named:26: 'NaN': a value is a decimal number as 20, -0.5 or 1e-9, or a pattern: NaN is 0x7ff8000000000000"),
        ("cell speed\n", "cell speed = 1 b = 2\n", "plan.named:7: 'cell': the form is: cell NAME .. = VALUE"),
        ("drive:   vote cyan ", "drive:   vote cyan cyan ", "plan.named:32: 'cyan': line 32 has this vote already"),
        ("correct: cyan_error    = take cyan\n", "", "plan.named:8: 'cyan_error': refusal 6: cell cyan_error is never known for good"),
    ] {
        let path = work.file("named/plan.named", named.replacen(from, to, 1))?;
        work.refused(&["plan", &path], "", words)?;
        let output = call(work.tree, &["check", &path]);
        same("check", (output.status, output.out.contains(words), output.errors.as_str()), (1, true, ""))?;
        same("a rule", output.out.contains("\n  rule: "), words.contains("refusal"))?;
    }
    let path = work.file("named/bytes.named", b"nodes 3\nframes 2\nsensors \xff\n")?;
    work.refused(&["plan", &path], "", "bytes.named:3: the line is not UTF-8 text")?;
    for (run, words) in [
        ("1 times 2\n1 bad 2 silent\n", "run.named:2: 'silent': refusal 10: fill is 256, silence"),
        ("fill 300\n# so\n1\n", "run.named:1: '300': refusal 10: fill is 300, a fill is 0 to 255"),
        ("1\n1 bad 3\n", "run.named:2: '3': the plan has no such node; its nodes are 0 to 2"),
        ("1 bad 1,2\n", "run.named:1: '1,2': a node is a whole number, 0 to 2"),
        ("1 2\n", "run.named:1: '2': 2 values in this line, and the plan has 1 sensor"),
        ("1 bad 2 2\n", "run.named:1: '2': this node stands there already"),
        ("fill 7 8\n1\n", "run.named:1: '8': nothing more stands in this line"),
        (
            "1 fill 7 bad 2\n",
            "run.named:1: 'bad': behind the values stand, in this order: bad NODES",
        ),
        ("bad 1\n", "run.named:1: 'bad': the sensors' values come first"),
        (".5\n", "run.named:1: '.5': a value is a decimal number"),
        ("1 times +5\n", "run.named:1: '+5': how many frames are alike is a whole number"),
        ("1 times 100000\n1\n", "run.named:2: '1': a run has at most 100,000 frames"),
    ] {
        let path = work.file("named/run.named", run)?;
        work.refused(&["plan", "examples/k/plan.named", &path], "", words)?;
    }
    // Windows line ends, a byte order mark, no line feed at the end.
    let odd = format!("\u{feff}{}", named.trim_end().replace('\n', "\r\n"));
    let path = work.file("named/odd.named", odd)?;
    work.right(&["plan", &path], &work.example("press/plan.txt")?)
}

/// Folders with named files alone, and with named files that are not those of the texts.
fn named_folders(work: &Work) -> Result<(), String> {
    for name in ["plan.named", "run.named"] {
        work.file(&format!("by name/{name}"), work.example(&format!("press/{name}"))?)?;
    }
    work.right(&["run", &work.at("by name")], &work.example("press/listing.txt")?)?;
    work.right(&["show", &work.at("by name")], &work.example("press/show.txt")?)?;
    for name in ["plan.txt", "run.txt", "plan.named"] {
        work.file(&format!("by name/{name}"), work.example(&format!("press/{name}"))?)?;
    }
    work.file("by name/run.named", work.example("press/run.named")?.replacen("bad 2", "bad 1", 1))?;
    for (verb, wanted) in [("run", "press/listing.txt"), ("show", "press/show.txt")] {
        let output = call(work.tree, &[verb, &work.at("by name")]);
        let said =
            output.errors.contains("run.named does not give run.txt, which is used; to use it: ");
        same(verb, (output.status, output.out, said), (0, work.example(wanted)?, true))?;
    }
    work.file(
        "by name/plan.named",
        work.example("press/plan.named")?.replacen("nodes 5", "nodes 4", 1),
    )?;
    let accepted = String::from("accepted: 5 nodes, 2 frames, 13 cells, R = 3\n");
    let histories = work.example("press/histories.txt")?;
    let listing = work.example("press/listing.txt")?;
    for (verb, wanted) in [("run", listing), ("check", accepted), ("histories", histories)] {
        let output = call(work.tree, &[verb, &work.at("by name")]);
        let said =
            output.errors.contains("plan.named does not give plan.txt, which is used; to use it: ");
        let got = (output.status, output.out, said, output.errors.lines().count());
        same(verb, got, (0, wanted, true, 1))?;
    }
    // Its names are not those of the text, then.
    let output = call(work.tree, &["show", &work.at("by name")]);
    let head = output.out.lines().nth(3).unwrap_or_default();
    same("made-up names", (head.contains(" a0 "), head.contains("cyan")), (true, false))?;
    // A refused line of a run by name, in a folder.
    work.file("silent/plan.named", work.example("k/plan.named")?)?;
    work.file("silent/run.named", "1\n1 bad 2 silent\n")?;
    let listing = work.example("k/listing.txt")?;
    let first = listing.split_inclusive('\n').next().unwrap_or_default();
    let words = "run.named:2: 'silent': refusal 10: fill is 256, silence";
    work.refused(&["run", &work.at("silent")], &format!("{first}  10       2\n"), words)
}

/// Output that cannot be written is told; a closed pipe is not; a link to the script works.
fn streams(work: &Work) -> Result<(), String> {
    let full =
        || fs::File::options().write(true).open("/dev/full").map_err(|error| error.to_string());
    let output = outcome(command(work.tree, &["run"]).stdout(full()?));
    let said = output.errors.contains("the output cannot be written");
    same("a full disk", (output.status, said), (2, true))?;
    let mut to_full = command(work.tree, &["check", "nowhere"]);
    let status = to_full
        .stdout(Stdio::null())
        .stderr(full()?)
        .status()
        .map_err(|error| error.to_string())?;
    same("errors to a full disk", status.code(), Some(2))?;
    let mut child = command(work.tree, &["run"])
        .stdout(Stdio::piped())
        .spawn()
        .map_err(|error| error.to_string())?;
    drop(child.stdout.take());
    let status = child.wait().map_err(|error| error.to_string())?;
    same("a closed pipe", status.code(), Some(0))?;
    // Nothing is left in the folder for files of an hour.
    let empty = work.folder.join("hour");
    fs::create_dir_all(&empty).map_err(|error| error.to_string())?;
    let output = outcome(command(work.tree, &["show"]).env("TMPDIR", &empty));
    let left = fs::read_dir(&empty).map_or(1, |files| files.count());
    same("files of an hour", (output.status, left), (0, 0))?;
    let link = work.folder.join("link");
    symlink(work.tree.root.join("ragbasalt"), &link).map_err(|error| error.to_string())?;
    let output = outcome(Command::new(&link).current_dir(&work.folder));
    same("a link", (output.status, output.out), (0, work.example("k/listing.txt")?))
}

/// A repository of five crates with a .ci/prove of its own, which proves nothing and prints much: what is
/// shown on first use.
fn first_use(work: &Work) -> Result<(), String> {
    let view = work.tree.root.join("target/view/ragbasalt");
    work.file(
        "tree/crates.txt",
        "# crates\nplan:\nlines: plan\nother: plan\nrun: plan lines io\nplan_check: plan # not other\n",
    )?;
    work.file("tree/crates/plan/src/lib.rt", "")?;
    work.file("tree/examples/k/plan.txt", "x")?;
    work.file("tree/examples/k/run.txt", "")?;
    let rt = "#!/bin/sh\nfor name in plan lines run plan_check; do echo \"fn $name::f: proved\"; echo \"rt: $name proved (1 s)\"; done\n\
        echo noise >&2\nmkdir -p target/bin\nfor name in run plan_check; do\n\
        printf '#!/bin/sh\\necho \"   1       0\"\\n' >target/bin/$name; chmod +x target/bin/$name; done\n";
    work.file("tree/.ci/prove", rt)?;
    let root = work.folder.join("tree");
    let call = || outcome(Command::new(&view).arg(&root));
    let first = call();
    let wanted =
        "ragbasalt: proving and building the program; from nothing this takes some minutes\n\
        ragbasalt:  1 of 4 plan proved (1 s), log target/prove.log\n\
        ragbasalt:  2 of 4 lines proved (1 s), log target/prove.log\n\
        ragbasalt:  3 of 4 run proved (1 s), log target/prove.log\n\
        ragbasalt:  4 of 4 plan_check proved (1 s), log target/prove.log\n";
    let words = "plan.txt: refusal 1: the text has 1 bytes";
    let shown = first.errors.starts_with(wanted)
        && first.errors.contains(words)
        && !first.errors.contains("noise");
    same("first use", shown, true).map_err(|report| report + &first.errors)?;
    same("first use", (first.status, first.out.as_str()), (1, "   1       0\n"))?;
    let log =
        fs::read_to_string(root.join("target/prove.log")).map_err(|error| error.to_string())?;
    same("the log", log.contains("fn plan::f: proved\n") && log.contains("noise\n"), true)?;
    same("second use", call().errors.contains("proving"), false)?;
    // A source that is newer, or crates.txt, is seen.
    let later = std::time::SystemTime::now() + std::time::Duration::from_secs(3);
    for name in ["crates/plan/src/lib.rt", "crates.txt"] {
        let file = fs::File::open(root.join(name)).map_err(|error| error.to_string())?;
        let before =
            file.metadata().and_then(|data| data.modified()).map_err(|error| error.to_string())?;
        file.set_modified(later).map_err(|error| error.to_string())?;
        same("a newer source", call().errors.contains("proving"), true)?;
        file.set_modified(before).map_err(|error| error.to_string())?;
    }
    same("sources as before", call().errors.contains("proving"), false)?;
    work.file("tree/.ci/prove", "#!/bin/sh\necho 'rt: plan proved (1 s)'\necho 'rt: lines NOT PROVED (2 s)'\nexit 1\n")?;
    fs::remove_file(root.join("target/bin/run")).map_err(|error| error.to_string())?;
    let failed = call();
    let last = failed.errors.lines().last().unwrap_or_default();
    same(
        "a crate that is not proved",
        (failed.status, last),
        (2, "ragbasalt: lines is not proved; target/prove.log has why"),
    )
}

/// The library of two families in a repository with a .ci/prove that proves nothing: the crates that they
/// share are shown once, and the archive has the objects of both.
fn library(work: &Work) -> Result<(), String> {
    let view = work.tree.root.join("target/view/ragbasalt");
    let error = |error: std::io::Error| error.to_string();
    work.file(
        "library/crates.txt",
        "plan:\nragbasalt_a staticlib: plan\nnode: plan\nragbasalt_b staticlib: plan node\n",
    )?;
    work.file("library/crates/plan/src/lib.rt", "")?;
    let script = fs::read(work.tree.root.join(".ci/library")).map_err(error)?;
    work.file("library/.ci/library", script)?;
    let prove = "#!/bin/sh\n[ \"$*\" = 'ragbasalt_a ragbasalt_b' ] || exit 1\necho noise >&2\nmkdir -p target/staticlib\n\
        for family in ragbasalt_a ragbasalt_b; do\n\
        if [ $family = ragbasalt_a ]; then echo 'rt: plan proved (1 s)'\n\
        else echo 'rt: plan proved (unchanged since it was last proved)'; echo 'rt: node proved (2 s)'; fi\n\
        echo \"rt: $family proved (1 s)\"\n\
        echo $family >$family.o; ar rc target/staticlib/lib$family.a $family.o; done\n";
    work.file("library/.ci/prove", prove)?;
    let root = work.folder.join("library");
    let call = || outcome(Command::new(&view).arg(&root).arg("library"));
    let first = call();
    let wanted =
        "ragbasalt: proving and building the library; from nothing this takes some minutes\n\
        ragbasalt:  1 of 4 plan proved (1 s), log target/prove.log\n\
        ragbasalt:  2 of 4 ragbasalt_a proved (1 s), log target/prove.log\n\
        ragbasalt:  3 of 4 node proved (2 s), log target/prove.log\n\
        ragbasalt:  4 of 4 ragbasalt_b proved (1 s), log target/prove.log\n";
    same("the library", (first.status, first.errors.as_str()), (0, wanted))?;
    let archive = root.join("target/staticlib/libragbasalt.a");
    let named = first.out.starts_with(&format!("{}\n", archive.display()));
    same("the library", named && first.out.contains("include/ragbasalt.h\n"), true)?;
    let members = outcome(Command::new("ar").arg("t").arg(&archive));
    same("the archive", members.out.as_str(), "ragbasalt_a.o\nragbasalt_b.o\n")?;
    same("the library again", (call().status, call().errors.as_str()), (0, ""))?;
    fs::remove_file(&archive).map_err(error)?;
    work.file("library/.ci/prove", "#!/bin/sh\necho 'no proof'\nexit 3\n")?;
    let failed = call();
    let last = failed.errors.lines().last().unwrap_or_default();
    let words = "ragbasalt: bash .ci/library failed; target/prove.log has why";
    same("a library that is not proved", (failed.status, last), (2, words))
}

pub fn all(tree: &Tree) -> Tested {
    let folder = tree.root.join("target/view/work");
    let _ = fs::remove_dir_all(&folder);
    let work = &Work { tree, folder };
    for part in [
        everything_right,
        missing_things,
        refused_texts,
        named_files,
        named_folders,
        streams,
        first_use,
        library,
    ] {
        part(work)?;
    }
    let _ = fs::remove_dir_all(&work.folder);
    Ok(String::from("streams, words and exit status of every verb; what is shown on first use"))
}
