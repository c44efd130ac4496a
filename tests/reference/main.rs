//! An independent reference for the voting frame controller, written from document 01 and requests
//! 2026-01, 2026-02 and 2026-04 to 2026-07 alone, with a generator of test cases and a comparer. See
//! README.md.

#[allow(dead_code)]
#[cfg(test)]
mod calls;
#[cfg(test)]
mod card;
mod cases;
mod check;
mod compare;
mod damage;
mod frame;
mod generate;
mod histories;
mod listing;
mod plan;
mod random;
#[cfg(test)]
mod tests;

use std::fs::File;
use std::io::{self, Read, Write};
use std::path::Path;
use std::process::ExitCode;

const USAGE: &str = "usage:
  reference listing FOLDER                        print the listing of FOLDER/plan.txt and run.txt
  reference case SEED FOLDER                      write the case of a seed to FOLDER
  reference compare PROGRAM COUNT [FIRST_SEED]    compare PROGRAM with the reference
  reference blocks-case SEED FOLDER               write the case of a seed to FOLDER
  reference blocks PROGRAM COUNT [FIRST_SEED]     compare PROGRAM on runs longer than a block
  reference histories-listing FOLDER              print the histories of FOLDER/plan.txt
  reference histories-case SEED FOLDER            write the plan of a seed to FOLDER
  reference histories PROGRAM COUNT [FIRST_SEED]  compare PROGRAM with the reference's histories
  reference check-listing FOLDER                  print the period or refusal of FOLDER/plan.txt
  reference check-case SEED FOLDER                write the plan of a seed to FOLDER
  reference check PROGRAM COUNT [FIRST_SEED]      compare PROGRAM with the reference's periods";

/// "A file that can't be opened counts as empty." Where a read fails later, what was read before
/// is the file.
fn file(folder: &str, name: &str) -> Vec<u8> {
    let mut bytes = Vec::new();
    if let Ok(mut file) = File::open(Path::new(folder).join(name)) {
        let _ = file.read_to_end(&mut bytes);
    }
    bytes
}

fn print(listing: listing::Listing) -> io::Result<bool> {
    io::stdout().lock().write_all(&listing.bytes)?;
    Ok(true)
}

fn write_case(case: cases::Case, folder: &str) -> io::Result<bool> {
    compare::write_case(&case, Path::new(folder))?;
    println!("{}", case.class);
    Ok(true)
}

fn usage() -> io::Result<bool> {
    eprintln!("{USAGE}");
    Ok(false)
}

fn command(arguments: &[&str]) -> io::Result<bool> {
    let number = |text: &str| text.parse::<u64>().ok();
    let plan = |folder: &str| file(folder, "plan.txt");
    match *arguments {
        ["listing", folder] => print(listing::listing(&plan(folder), &file(folder, "run.txt"))),
        ["histories-listing", folder] => print(histories::text(&plan(folder))),
        ["check-listing", folder] => print(check::text(&plan(folder))),
        [what @ ("case" | "blocks-case" | "histories-case" | "check-case"), seed, folder] => {
            match number(seed) {
                Some(seed) if what == "case" => write_case(cases::case(seed), folder),
                Some(seed) if what == "blocks-case" => write_case(cases::blocks_case(seed), folder),
                Some(seed) => write_case(cases::histories_case(seed), folder),
                None => usage(),
            }
        }
        [what @ ("compare" | "blocks" | "histories" | "check"), program, count, ref first @ ..]
            if first.len() < 2 =>
        {
            let kind = match what {
                "compare" => &compare::RUN,
                "blocks" => &compare::BLOCKS,
                "histories" => &compare::HISTORIES,
                _ => &compare::CHECK,
            };
            let first = first.first().map_or(Some(0), |first| number(first));
            match (number(count), first) {
                (Some(count), Some(first)) => compare::compare(kind, program, count, first),
                _ => usage(),
            }
        }
        _ => usage(),
    }
}

fn main() -> ExitCode {
    let arguments: Vec<String> = std::env::args().skip(1).collect();
    let arguments: Vec<&str> = arguments.iter().map(String::as_str).collect();
    match command(&arguments) {
        Ok(true) => ExitCode::SUCCESS,
        Ok(false) => ExitCode::FAILURE,
        Err(error) => {
            eprintln!("{error}");
            ExitCode::FAILURE
        }
    }
}
