//! Where the promise ends: worked out by hand on runs of plan K with one to seven nodes, of which
//! R is 3, and read off the reference's listings.

use super::view::listing::Run;
use super::view::names::Names;
use super::view::{named, picture, runs, show, text};
use super::{pictures, same, tables, Tested, Tree};

/// A run by name, what is behind it in the run text, and what has to be told of it.
struct Told {
    nodes: usize,
    run: &'static str,
    behind: &'static str,
    /// The first frame in which not more than half work, and how many do.
    end: Option<(usize, u64)>,
    /// The frames of the table's rows; `..` stands for rows that begin behind the one before it.
    rows: &'static str,
}

/// Run lines that are refused, for three nodes: the second one would leave one of them.
const MASK_8: &str = "   8   0                   0\n";
const MASK_11: &str = "  11   0                   0\n";

fn told(nodes: usize, run: &'static str, end: Option<(usize, u64)>, rows: &'static str) -> Told {
    Told { nodes, run, behind: "", end, rows }
}

fn cases() -> Vec<Told> {
    vec![
        // Never: nobody, one of three, one and the same for long, from power-on.
        told(3, "1 times 3\n", None, "0 1 2"),
        told(3, "1\n1 bad 2\n1 times 4\n", None, "0 1 2 3 4 5"),
        told(3, "1 bad 0 times 4\n1\n", None, "0 1 2 3 4"),
        // Two of three at once; from frame 5 on all three work, and nothing is promised.
        told(3, "1\n1 bad 0 1\n1 times 5\n", Some((1, 1)), "0 1! 2! 3! 4! 5! 6!"),
        told(3, "1 times 3\n1 bad 0 1 2\n", Some((3, 0)), "0 1 2 3!"),
        // The second one when the first has been good for two frames, and for three.
        told(3, "1\n1 bad 0\n1 times 2\n1 bad 1\n1\n", Some((4, 1)), "0 1 2 3 4! 5!"),
        told(3, "1\n1 bad 0\n1 times 3\n1 bad 1\n1\n", None, "0 1 2 3 4 5 6"),
        // The first such frame counts, not a later one.
        told(3, "1 bad 0 1\n1 times 4\n1 bad 0 1\n", Some((0, 1)), "0! 1! 2! 3! 4! 5!"),
        // More than half of two is two, of one is one.
        told(2, "1 times 3\n", None, "0 1 2"),
        told(2, "1\n1 bad 1\n1 times 4\n", Some((1, 1)), "0 1! 2! 3! 4! 5!"),
        told(2, "1 times 2\n1 bad 0 1\n", Some((2, 0)), "0 1 2!"),
        told(1, "1 times 2\n", None, "0 1"),
        told(1, "1 bad 0\n1 times 4\n", Some((0, 0)), "0! 1! 2! 3! 4!"),
        // Half of four and of six is not more than half.
        told(4, "1\n1 bad 3\n1\n", None, "0 1 2"),
        told(4, "1\n1 bad 0 3\n1\n", Some((1, 2)), "0 1! 2!"),
        told(5, "1\n1 bad 0 3\n1\n", None, "0 1 2"),
        told(5, "1\n1 bad 0 3\n1 bad 4\n", Some((2, 2)), "0 1 2!"),
        told(6, "1\n1 bad 0 1\n1 bad 2\n", Some((2, 3)), "0 1 2!"),
        told(7, "1\n1 bad 0 1\n1 bad 2\n", None, "0 1 2"),
        // Of a long run frames share rows, and none has frames of both sides.
        told(3, "1 times 30\n1 bad 0 1\n1 times 39\n", Some((30, 1)), "0 1-29 30! 31! .. 69!"),
        told(3, "1 times 60\n", None, "0 1-58 59"),
        told(2, "1\n1 bad 0 1 times 70\n", Some((1, 0)), "0 1! 2-69! 70!"),
        // A refused line is no frame.
        Told { behind: MASK_11, ..told(3, "1 times 2\n", None, "0 1") },
        Told { behind: MASK_8, ..told(3, "1\n1 bad 1 2\n1\n", Some((1, 1)), "0 1! 2!") },
        Told { behind: MASK_11, ..told(3, "", None, "") },
        told(3, "", None, ""),
    ]
}

/// The words of a table or picture.
pub fn words(nodes: usize, end: Option<(usize, u64)>) -> String {
    match end {
        None => String::from(
            "right setpoints are promised in every frame: more than half of the nodes work in each",
        ),
        Some((end, working)) => format!("nothing is promised from frame {end} on until the next power-on: in frame {end} not more than half of the nodes work ({working} of {nodes})"),
    }
}

/// The first frame in which not more than half of the nodes work, and how many do, by the second
/// column of a listing.
pub fn of_listing(listing: &[u8], nodes: usize) -> Option<(usize, u64)> {
    let working = |line: &[u8]| std::str::from_utf8(line.get(8..12)?).ok()?.trim().parse().ok();
    // A refusal's line, the last, has no more than 12 letters.
    let lines = listing.split(|&byte| byte == b'\n').filter(|line| line.len() > 12);
    let counts = lines.map(|line| working(line).unwrap_or(u64::MAX));
    counts.enumerate().find(|&(_, count)| count * 2 <= nodes as u64)
}

/// Plan K with another number of nodes, and a run of it.
fn followed(tree: &Tree, told: &Told) -> Result<(Run, Names), String> {
    let plan = std::fs::read_to_string(tree.root.join("examples/k/plan.named"))
        .map_err(|error| error.to_string())?;
    let plan = plan.replacen("nodes 3", &format!("nodes {}", told.nodes), 1);
    let plan = named::read(&plan).map_err(|mistake| mistake.report("plan.named"))?;
    let run = runs::read(told.run, &plan.rows[0], &plan.names)
        .map_err(|mistake| mistake.report("run.named"))?;
    let run = [runs::text(&run.lines), told.behind.as_bytes().to_vec()].concat();
    let (run, _) = tables::run(tree, text::text(&plan.rows), run)?.ok_or("a plan refused")?;
    Ok((run, plan.names))
}

/// The first words of the rows are the ones that have to be.
fn rows_are(rows: &[&str], wanted: &str) -> bool {
    let wanted: Vec<&str> = wanted.split_whitespace().collect();
    match wanted.iter().position(|word| *word == "..") {
        None => rows == wanted,
        Some(at) => {
            let (front, back) = (&wanted[..at], &wanted[at + 1..]);
            rows.len() >= wanted.len() && rows.starts_with(front) && rows.ends_with(back)
        }
    }
}

fn check_table(run: &Run, names: &Names, told: &Told) -> Result<(), String> {
    let table = show::table(run, names, false);
    let mut lines = table.lines().skip(1);
    if run.frames.is_empty() {
        return same("a run without frames", lines.next(), None);
    }
    same("the promise", lines.next(), Some(words(told.nodes, told.end).as_str()))?;
    let rows = lines.by_ref().skip(2).take_while(|line| !line.is_empty());
    let rows: Vec<&str> = rows.filter_map(|line| line.split_whitespace().next()).collect();
    same(&format!("rows {rows:?}"), rows_are(&rows, told.rows), true)?;
    let explained = lines.filter(|line| line.starts_with("!: nothing is promised, ")).count();
    same("the mark's words", explained, usize::from(told.end.is_some()))
}

fn check_picture(run: &Run, names: &Names, told: &Told) -> Result<(), String> {
    let svg = picture::svg(run, names, "by hand");
    pictures::check(run, &svg)?;
    let told_once = svg.matches(&format!(">{}</text>", words(told.nodes, told.end))).count();
    same("the promise", told_once, usize::from(!run.frames.is_empty()))?;
    // Three panels, from the left edge of the frame to the right end, at 936.
    let end = told.end.map(|(end, _)| 96.0 + 840.0 * end as f64 / run.frames.len() as f64);
    let wanted: Vec<f64> = end.map_or(Vec::new(), |end| vec![end; 3]);
    let hatched = pictures::hatched(&svg)?;
    let near = |(&(from, to), wanted): (&(f64, f64), &f64)| {
        (from - wanted).abs() < 0.06 && (to - 936.0_f64).abs() < 0.11
    };
    let right = hatched.len() == wanted.len() && hatched.iter().zip(&wanted).all(near);
    same(&format!("hatched {hatched:?}, not from {wanted:?}"), right, true)
}

/// The whole table of two of three bad at once, letter by letter. Both hold and send zeros, so the
/// vote takes node 2's total of 1 to 0; from frame 2 on all three run alike, and the total lacks 1.
const TWO_OF_THREE: &str = "\
3 nodes, 2 frames, 2 cells, R = 3; 7 frames run, 2 faults, setpoints off in 6 frames
nothing is promised from frame 1 on until the next power-on: in frame 1 not more than half of the nodes work (1 of 3)

frame   bad   n0   n1  n2  equal  agree  total
    0     -   ok   ok  ok      3      3      0
    1!  0 1  BAD  BAD  ok      0      2      0*
    2!    -   +1   +1  ok      0      3      0*
    3!    -   +2   +2  ok      0      3      1*
    4!    -   +3   +3  ok      0      3      1*
    5!    -   ok   ok  ok      0      3      2*
    6!    -   ok   ok  ok      0      3      2*

n0 to n2: ok working; BAD bad; +1, +2 and so on: recovering, good for so many frames, working from the frame after +3 on
equal: nodes whose memory is that of a controller that never failed; agree: the least agreement of a good node
!: nothing is promised, also where nodes are ok again and setpoints right: the promise is for runs with more than half of the nodes working in every frame since power-on
*: not what a press without faults gets (the same run with nobody bad, by the proved program)
";

/// An end put elsewhere has to be seen by the tests.
fn check_seen(run: &Run, names: &Names, told: &Told) -> Result<(), String> {
    let Some(last) = run.frames.len().checked_sub(1) else { return Ok(()) };
    let ends = match told.end {
        None => [Some(0), Some(last)],
        Some((0, _)) => [Some(1), None],
        Some((end, _)) => [Some(end - 1), None],
    };
    for end in ends {
        let wrong = Run { promise_end: end, ..run.clone() };
        let seen = [
            check_table(&wrong, names, told).is_err(),
            check_picture(&wrong, names, told).is_err(),
            tables::check_table(&wrong, names).is_err(),
            tables::check_short_table(&wrong, names).is_err(),
        ];
        same(&format!("{end:?} for {:?} is seen", told.end), seen, [true; 4])?;
    }
    Ok(())
}

pub fn all(tree: &Tree) -> Tested {
    let cases = cases();
    for told in &cases {
        let of = |report: String| format!("{} nodes, {:?}: {report}", told.nodes, told.run);
        let (run, names) = followed(tree, told).map_err(of)?;
        same("where it ends", run.promise_end, told.end.map(|(end, _)| end)).map_err(of)?;
        same("refused", run.refusal.is_some(), !told.behind.is_empty()).map_err(of)?;
        check_table(&run, &names, told).map_err(of)?;
        check_picture(&run, &names, told).map_err(of)?;
        check_seen(&run, &names, told).map_err(of)?;
    }
    let two = cases.iter().find(|told| told.run.contains("bad 0 1\n1 times 5")).ok_or("no case")?;
    let (run, names) = followed(tree, two)?;
    same("two of three", show::table(&run, &names, false).as_str(), TWO_OF_THREE)?;
    let ended = cases.iter().filter(|told| told.end.is_some()).count();
    Ok(format!("{} runs by hand, in {ended} of them it ends", cases.len()))
}
