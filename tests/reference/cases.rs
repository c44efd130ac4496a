//! The test cases: the bytes of plan.txt and run.txt follow from the seed alone.

use super::damage;
use super::generate::{
    assemble, chain, longest, never, plan_text, quick, recovering, run, run_text, slow, slowest,
    votes, Masks, OUTSIDE,
};
use super::listing::MOST_LINES;
use super::plan::{read, Row};
use super::random::{Random, Values};

/// A file that is None is not written.
pub struct Case {
    pub class: &'static str,
    pub plan: Option<Vec<u8>>,
    pub run: Option<Vec<u8>>,
}

/// The classes, and how many of each 100 seeds one after another they get.
pub const CLASSES: [(&str, u64); 19] = [
    ("within the premise", 10),
    ("outside the premise", 13),
    ("ties at the plane", 6),
    ("slow recovery", 3),
    ("longest plan", 2),
    ("long run", 1),
    ("empty run", 1),
    ("one-line run", 1),
    ("no recovery", 3),
    ("plan length", 2),
    ("plan form", 9),
    ("plan header", 7),
    ("plan order", 10),
    ("plan rules", 12),
    ("plan, several damages", 8),
    ("run damaged", 9),
    ("plan and run damaged", 1),
    ("plan.txt missing", 1),
    ("run.txt missing", 1),
];

/// The classes of the histories program.
pub const HISTORIES_CLASSES: [(&str, u64); 12] = [
    ("any period", 30),
    ("short period", 22),
    ("slow recovery", 4),
    ("longest plan", 2),
    ("no recovery", 5),
    ("plan length", 3),
    ("plan form", 7),
    ("plan header", 8),
    ("plan order", 7),
    ("plan rules", 7),
    ("plan, several damages", 3),
    ("plan.txt missing", 2),
];

/// Runs at the limit of 100,000 lines: one seed each out of 3,000 one after another.
pub const LIMITS: [(&str, u64); 3] =
    [("100,000 lines", 999), ("100,001 lines", 1999), ("100,001 lines, last damaged", 2999)];

/// The classes of runs that are longer than a block of lines. The run program reads, runs and
/// prints 128 lines at a time, so that the first line of the next block is a place of its own.
pub const BLOCKS_CLASSES: [(&str, u64); 6] = [
    ("damaged near a block's edge", 48),
    ("damaged past the first lines", 10),
    ("ends near a block's edge", 20),
    ("damaged near an edge far on", 8),
    ("damaged near line 100,000", 2),
    ("recoveries, R above 60", 12),
];

pub const BLOCK: usize = 128;

/// A plan for the classes that damage it; now and then one that 6 would refuse.
fn any_plan(r: &Random, values: &Values) -> Vec<Row> {
    match r.below(12) {
        0 | 1 => never(r, values),
        2 => slow(r, values),
        3 => longest(r, values),
        _ => recovering(r, values),
    }
}

/// A small plan, for long runs.
fn small_plan(r: &Random, values: &Values) -> Vec<Row> {
    let sizes = [3, r.between(1, 2), r.between(1, 2), 1, 1];
    let middle = [chain(r, values, sizes), votes(r, sizes, 50)].concat();
    assemble(r, values, sizes, &middle)
}

/// A small plan and a run of 100,000 lines or one more.
fn limit_case(r: &Random, class: &'static str) -> Case {
    let values = &Values::new(r);
    let rows = small_plan(r, values);
    let plan = read(&plan_text(&rows)).expect("a chain has a recovery period");
    let surplus = usize::from(class != LIMITS[0].0);
    let mut run = run(r, &plan, values, Masks::Premise, MOST_LINES + surplus);
    if class == LIMITS[2].0 {
        run.truncate(run.len() - r.between(1, 28));
    }
    Case { class, plan: Some(plan_text(&rows)), run: Some(run) }
}

/// A plan that is whole, and its run.
fn whole_case(r: &Random, class: &'static str) -> Case {
    let values = &Values::new(r);
    let mut rows = match class {
        "slow recovery" => slow(r, values),
        "longest plan" => longest(r, values),
        "no recovery" => never(r, values),
        _ => recovering(r, values),
    };
    if class == "ties at the plane" {
        rows[0][1] = r.pick(&[2, 4, 6]);
    }
    let count = match class {
        "long run" => r.between(1500, 4000),
        "empty run" => 0,
        "one-line run" => 1,
        _ => r.between(2, 60),
    };
    let plan = plan_text(&rows);
    let run = match (class, read(&plan)) {
        ("outside the premise", Ok(plan)) => run(r, &plan, values, r.pick(&OUTSIDE), count),
        ("ties at the plane", Ok(plan)) => run(r, &plan, values, Masks::Halves, count),
        ("within the premise" | "slow recovery", Ok(plan)) => {
            // Long enough for nodes to recover, unless R is large.
            let count = count.max((3 * plan.period).min(200));
            run(r, &plan, values, Masks::Premise, count)
        }
        _ => any_run(r, &plan, values, count).0,
    };
    Case { class, plan: Some(plan), run: Some(run) }
}

/// A run with any masks, and the numbers of nodes and sensors it is for. For a refused plan these
/// are made up, as nobody will read the run.
fn any_run(r: &Random, plan: &[u8], values: &Values, count: usize) -> (Vec<u8>, usize, usize) {
    let masks = r.pick(&[Masks::Quiet, Masks::Premise, Masks::Any, Masks::Stretches]);
    match read(plan) {
        Ok(plan) => (run(r, &plan, values, masks, count), plan.nodes, plan.sensors),
        Err(_) => {
            let sensors = r.between(1, 16);
            (run_text(&vec![vec![0; 2 + sensors]; count]), 3, sensors)
        }
    }
}

/// The plan of a class that damages it, or leaves it whole; `turn` counts the cases of the class.
fn damaged_plan(r: &Random, values: &Values, class: &str, turn: usize) -> Vec<u8> {
    let rows = match class {
        "run damaged" | "run.txt missing" => recovering(r, values),
        "plan rules" => loop {
            let rows = any_plan(r, values);
            if rows.iter().any(|row| row[0] == damage::KINDS[turn % damage::KINDS.len()]) {
                break rows;
            }
        },
        _ => any_plan(r, values),
    };
    match class {
        "plan length" => damage::length(r, plan_text(&rows), turn),
        "plan form" => damage::form(r, rows, turn),
        "plan header" => damage::header(r, rows, turn),
        "plan order" => damage::order(r, rows, turn),
        "plan rules" => damage::rules(r, rows, turn),
        "plan, several damages" | "plan and run damaged" => damage::several(r, rows, turn),
        _ => plan_text(&rows),
    }
}

/// A plan or run that is damaged or missing.
fn damaged_case(r: &Random, class: &'static str, turn: usize) -> Case {
    let values = &Values::new(r);
    let plan = damaged_plan(r, values, class, turn);
    let (mut run, nodes, sensors) = any_run(r, &plan, values, r.between(1, 20));
    if class.ends_with("run damaged") {
        damage::run(r, &mut run, nodes, sensors, turn);
    }
    Case {
        class,
        plan: Some(plan).filter(|_| class != "plan.txt missing"),
        run: Some(run).filter(|_| class != "run.txt missing"),
    }
}

/// The class of a seed, and how many cases of that class have smaller seeds.
fn class_in(classes: &[(&'static str, u64)], seed: u64) -> (&'static str, usize) {
    let mut slot = seed % 100;
    for &(class, share) in classes {
        if slot < share {
            return (class, (seed / 100 * share + slot) as usize);
        }
        slot -= share;
    }
    unreachable!("the shares of the classes sum to 100")
}

pub fn class_of(seed: u64) -> (&'static str, usize) {
    class_in(&CLASSES, seed)
}

pub fn case(seed: u64) -> Case {
    let r = &Random::new(seed);
    if let Some((class, _)) = LIMITS.iter().find(|(_, limit)| seed % 3000 == *limit) {
        return limit_case(r, class);
    }
    match class_of(seed) {
        (class, turn) if class.starts_with("plan") || class.starts_with("run") => {
            damaged_case(r, class, turn)
        }
        (class, _) => whole_case(r, class),
    }
}

/// A plan for the histories program, which reads no run.
pub fn histories_case(seed: u64) -> Case {
    let r = &Random::new(seed);
    let (class, turn) = class_in(&HISTORIES_CLASSES, seed);
    let values = &Values::new(r);
    let plan = match class {
        "any period" => plan_text(&recovering(r, values)),
        "short period" => plan_text(&quick(r, values)),
        "slow recovery" => plan_text(&slow(r, values)),
        "longest plan" => plan_text(&longest(r, values)),
        "no recovery" => plan_text(&never(r, values)),
        _ => damaged_plan(r, values, class, turn),
    };
    Case { class, plan: Some(plan).filter(|_| class != "plan.txt missing"), run: None }
}

/// A line, counted from 0, at most two before or one past the first line of a block.
fn near_edge(r: &Random, blocks: usize) -> usize {
    (BLOCK * blocks + r.below(4)).saturating_sub(2)
}

/// A run longer than a block of lines.
pub fn blocks_case(seed: u64) -> Case {
    let r = &Random::new(seed);
    let (class, turn) = class_in(&BLOCKS_CLASSES, seed);
    let values = &Values::new(r);
    let far = class.ends_with("far on") || class.ends_with("100,000");
    let rows = match class {
        "recoveries, R above 60" => slowest(r, values, turn % 3 == 0),
        _ if far => small_plan(r, values),
        _ => recovering(r, values),
    };
    let plan = read(&plan_text(&rows)).expect("a plan with a recovery period");
    // The line that is damaged, or that the run ends before, and how many lines there are.
    let (line, count) = match class {
        "damaged near a block's edge" => (near_edge(r, r.between(1, 3)), r.between(120, 400)),
        "damaged past the first lines" => (r.between(22, 399), r.between(120, 400)),
        "ends near a block's edge" => (near_edge(r, r.between(1, 3)), 0),
        "damaged near an edge far on" => (near_edge(r, r.between(7, 150)), 0),
        "damaged near line 100,000" => (MOST_LINES - 2 + turn % 3, MOST_LINES + 1),
        _ => (0, 3 * plan.period + r.below(40)),
    };
    let masks = match class {
        "recoveries, R above 60" => Masks::Seldom,
        _ => r.pick(&[Masks::Premise, Masks::Any, Masks::Stretches, Masks::Halves]),
    };
    let damaged = class.starts_with("damaged");
    let mut run = run(r, &plan, values, masks, count.max(line + usize::from(damaged)));
    if damaged {
        damage::run_at(r, &mut run, line, plan.nodes, plan.sensors, turn);
    }
    Case { class, plan: Some(plan_text(&rows)), run: Some(run) }
}
