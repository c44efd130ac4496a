//! The cause that is found in words has the proved program's number and line, on every damaged plan
//! and run of the reference's generator.

use std::collections::BTreeMap;

use super::cases::case;
use super::plan;
use super::view::cause;
use super::view::names::Names;
use super::view::programs::{refusal, Checked};
use super::view::text;
use super::{each, same, Tested, Tree};

const CASES: u64 = 4000;

pub fn all(tree: &Tree) -> Tested {
    let one = |seed: u64, counts: &mut BTreeMap<u64, u64>| {
        let case = case(seed);
        let plan = case.plan.unwrap_or_default();
        let found = cause::of_plan(&plan, None);
        match tree.programs.check(&plan).map_err(|unable| unable.0)? {
            Checked::Refused(refused) => {
                same(case.class, found.as_ref().map(|cause| cause.refusal), Some(refused))?;
                whole(&cause::report("plan.txt", refused, found.as_ref(), None))?;
                if refused.number == 6 {
                    same(
                        "cells never known",
                        found.map(|cause| cause.cells),
                        Some(never_known(&plan)),
                    )?;
                }
                *counts.entry(refused.number).or_default() += 1;
            }
            Checked::Accepted(period) => {
                same(case.class, found, None)?;
                same("the period", Some(period), plan::read(&plan).ok().map(|plan| plan.period))?;
                let run = case.run.unwrap_or_default();
                if case.class.contains("run damaged") {
                    let listing =
                        tree.programs.output_on("run", &[("plan.txt", &plan), ("run.txt", &run)]);
                    let Some(refused) = refusal(&listing.map_err(|unable| unable.0)?) else {
                        return Ok(());
                    };
                    let header = text::rows(&plan)[0];
                    let found =
                        cause::of_run(&header, &Names::made_up(&header), &run, refused.line);
                    same(case.class, found.as_ref().map(|cause| cause.refusal), Some(refused))?;
                    *counts.entry(refused.number).or_default() += 1;
                }
            }
        }
        Ok(())
    };
    let add = |sum: &mut BTreeMap<u64, u64>, counts: BTreeMap<u64, u64>| {
        counts.into_iter().for_each(|(number, count)| *sum.entry(number).or_default() += count);
    };
    let counts = each(CASES, one, add)?;
    let words: Vec<_> = counts.iter().map(|(number, count)| format!("{number}: {count}")).collect();
    match [1, 2, 3, 4, 5, 6, 10]
        .iter()
        .all(|number| counts.get(number).is_some_and(|&count| count > 20))
    {
        true => {
            Ok(format!("a cause in words for each refusal of {CASES} cases ({})", words.join(", ")))
        }
        false => Err(format!("some refusal hardly came up: {}", words.join(", "))),
    }
}

/// The cells that the reference does not know after the longest period there could be, from some
/// first frame.
fn never_known(text: &[u8]) -> Vec<usize> {
    let plan = plan::parse(text).expect("a plan that keeps rules 1 to 5");
    let count = 1 + plan.frames * plan.cells;
    let known: Vec<_> = (0..plan.frames).map(|first| plan.known_after(first, count)).collect();
    (0..plan.cells).filter(|&cell| known.iter().any(|known| !known[cell])).collect()
}

/// First line and rule, nothing left out.
fn whole(report: &str) -> Result<(), String> {
    let lines: Vec<_> = report.lines().collect();
    let right =
        lines.len() == 2 && lines[0].contains(": refusal ") && lines[1].starts_with("  rule: ");
    if right {
        Ok(())
    } else {
        Err(format!("a report of another form:\n{report}"))
    }
}
