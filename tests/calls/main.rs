//! Every call of libragbasalt.a beside the separate Rust program of tests/reference. See README.md.

mod both;
mod broken;
#[path = "../reference/calls.rs"]
mod calls;
#[path = "../reference/card.rs"]
mod card;
mod cards;
mod classes;
#[allow(dead_code)]
#[path = "../reference/damage.rs"]
mod damage;
mod draw;
#[path = "../reference/frame.rs"]
mod frame;
#[allow(dead_code)]
#[path = "../reference/generate.rs"]
mod generate;
#[allow(dead_code)]
#[path = "../reference/histories.rs"]
mod histories;
mod lend;
mod library;
#[allow(dead_code)]
#[path = "../reference/listing.rs"]
mod listing;
#[allow(dead_code)]
#[path = "../reference/plan.rs"]
mod plan;
#[path = "../reference/random.rs"]
mod random;

use std::process::ExitCode;
use std::sync::atomic::{AtomicU64, Ordering};
use std::sync::Barrier;

use both::{Both, Compared, Totals, CALLS, NUMBERS};
use cards::{card_case, card_class_of};
use classes::{case, class_of, long_case, long_class_of};
use random::Random;

const USAGE: &str = "usage:
  calls COUNT [FIRST_SEED]          compare cases until at least COUNT calls were made
  calls --seed SEED                 compare one case
  calls --cards COUNT [FIRST_SEED]  the same with lists of calls on a card
  calls --cards-seed SEED           compare one of them
  calls --bare [--cards] COUNT [FIRST_SEED]
                                    either with buffers that have no guards, for valgrind
  calls --long COUNT [FIRST_SEED]   compare COUNT long lists of frames
  calls --long-seed SEED            compare one of them
  calls --threads COUNT             compare both in two threads at once, COUNT calls each
  calls --broken TESTS LIBRARY WORK build broken references, copied from the folder TESTS to WORK,
                                    with libragbasalt.a in the folder LIBRARY, and compare";

const WORKERS: u64 = 2;
/// From this many calls on, each call and each of its answers has to come up.
const ENOUGH: u64 = 20_000;
/// And in so many calls memory has to decide a setpoint: 1,000 of them in 400,000.
const DECIDED: u64 = 400;

/// A difference, with its seed first.
type Difference = (u64, String);

/// What is compared: the calls of a seed, and the name of their class.
#[derive(Clone, Copy)]
struct Kind {
    case: fn(u64, &mut Both) -> Compared<()>,
    class_of: fn(u64) -> &'static str,
}

const USUAL: Kind = Kind { case, class_of };
const CARDS: Kind = Kind { case: card_case, class_of: card_class_of };
const LONG: Kind = Kind { case: long_case, class_of: long_class_of };

/// Names the case if it ends by a panic.
struct Running(u64, &'static str);

impl Drop for Running {
    fn drop(&mut self) {
        if std::thread::panicking() {
            println!("seed {}, case \"{}\": a panic", self.0, self.1);
        }
    }
}

fn compare(kind: Kind, seed: u64, totals: &mut Totals, bare: bool) -> Result<(), Difference> {
    let class = (kind.class_of)(seed);
    let _running = Running(seed, class);
    let r = &Random::new(seed);
    let done = (kind.case)(seed, &mut Both { r, totals, bare });
    done.map_err(|report| {
        (
            seed,
            format!("seed {seed}, case \"{class}\", call {}: a difference\n{report}", totals.calls),
        )
    })
}

/// Every WORKERS-th seed from `first` on, until `count` calls were made; no seed above `least`, the
/// least one at which a worker saw a difference.
fn work(
    kind: Kind,
    first: u64,
    count: u64,
    bare: bool,
    least: &AtomicU64,
) -> Result<Totals, Difference> {
    let mut totals = Totals::default();
    let mut seed = first;
    while totals.calls < count && seed < least.load(Ordering::Relaxed) {
        if let Err(difference) = compare(kind, seed, &mut totals, bare) {
            least.fetch_min(seed, Ordering::Relaxed);
            return Err(difference);
        }
        seed += WORKERS;
    }
    Ok(totals)
}

fn sum(all: &mut Totals, part: &Totals) {
    all.calls += part.calls;
    all.inside += part.inside;
    all.outside += part.outside;
    all.recovered += part.recovered;
    all.boards += part.boards;
    all.differing += part.differing;
    all.small.iter_mut().zip(part.small).for_each(|(all, part)| *all += part);
    all.decided.iter_mut().zip(part.decided).for_each(|(all, part)| *all += part);
    all.listings.iter_mut().zip(part.listings).for_each(|(all, part)| *all += part);
    all.long.iter_mut().zip(part.long).for_each(|(all, part)| *all += part);
    all.periods.iter_mut().zip(part.periods).for_each(|(all, part)| *all += part);
    for (all, part) in all.histories.iter_mut().flatten().zip(part.histories.iter().flatten()) {
        *all += part;
    }
    for (all, part) in all.answers.iter_mut().flatten().zip(part.answers.iter().flatten()) {
        *all += part;
    }
    all.cards.sum(&part.cards);
}

/// Prints how often each call, on cards or not, gave each answer; false if one of its answers never
/// came up.
fn print_answers(totals: &Totals, on_cards: bool) -> bool {
    let mut complete = true;
    let of_kind = |name: &str| name.starts_with("card_") == on_cards;
    let calls = CALLS.iter().zip(&totals.answers).filter(|((name, _), _)| of_kind(name));
    let calls: Vec<_> = calls.collect();
    let given = |&number: &usize| {
        calls.iter().any(|((_, can), seen)| can.contains(&number) || seen[number] > 0)
    };
    let numbers: Vec<_> = (0..NUMBERS).filter(given).collect();
    print!("{:<16}{:>8}", "call", "calls");
    numbers.iter().for_each(|number| print!("{number:>8}"));
    println!();
    for ((name, possible), answers) in &calls {
        print!("{name:<16}{:>8}", answers.iter().sum::<u64>());
        for &number in &numbers {
            let seen = answers[number];
            match possible.contains(&number) {
                true => print!("{seen:>8}"),
                false => print!("{:>8}", if seen == 0 { "" } else { "?" }),
            }
            complete &= (seen > 0) == possible.contains(&number);
        }
        println!();
    }
    print!("{:<24}", "answers");
    for &number in &numbers {
        print!("{:>8}", calls.iter().map(|(_, answers)| answers[number]).sum::<u64>());
    }
    println!();
    complete
}

/// The same for cards; false also if something that has to come up in their lists did not.
fn print_cards(totals: &Totals) -> bool {
    let answers = print_answers(totals, true);
    totals.cards.print() && answers
}

/// The same for all other calls; false also if memory decided too few setpoints.
fn print(totals: &Totals) -> bool {
    let mut complete = totals.inside > 0 && totals.outside > 0 && totals.recovered > 0;
    complete &= totals.differing > 0;
    complete &= totals.decided.iter().all(|setpoints| DECIDED * setpoints >= totals.calls);
    complete &= totals.small.iter().chain(&totals.listings).all(|&seen| seen > 0);
    complete &= totals.histories.iter().flatten().chain(&totals.periods).all(|&lists| lists > 0);
    complete &= print_answers(totals, false);
    println!(
        "frames inside the premise {}, outside {}; recovered memories {}",
        totals.inside, totals.outside, totals.recovered
    );
    println!(
        "frames of boards {}, with agreements that differ by node {}",
        totals.boards, totals.differing
    );
    let [one, two, apart] = totals.small;
    println!("frames of one node that is bad {one}; of two, one bad {two}, good and apart {apart}");
    let [frames, lines] = totals.decided;
    println!("setpoints that memory decided, in frames {frames}, in lines {lines}");
    let [whole, line, plan] = totals.listings;
    println!("runs listed to the end {whole}, to a refused line {line}, of a refused plan {plan}");
    println!(
        "histories by nodes and length {:?}; of length 4 by R of 1, 2 and longer {:?}",
        totals.histories, totals.periods
    );
    complete
}

fn run(kind: Kind, print: fn(&Totals) -> bool, count: u64, first: u64, bare: bool) -> bool {
    let mut totals = Totals::default();
    let least = &AtomicU64::new(u64::MAX);
    let parts: Vec<_> = std::thread::scope(|scope| {
        let count = count.div_ceil(WORKERS);
        let worker = |number| scope.spawn(move || work(kind, first + number, count, bare, least));
        let workers: Vec<_> = (0..WORKERS).map(worker).collect();
        workers.into_iter().map(|worker| worker.join().expect("no panic")).collect()
    });
    if let Some((_, report)) = parts.iter().filter_map(|part| part.as_ref().err()).min() {
        print!("{report}");
        return false;
    }
    parts.iter().flatten().for_each(|part| sum(&mut totals, part));
    if !print(&totals) && totals.calls >= ENOUGH {
        println!("something above never came up, or too seldom, or can't be");
        return false;
    }
    println!("calls: {} equal", totals.calls);
    true
}

/// Long lists; each kind of them has to come up.
fn long(count: u64, first: u64) -> bool {
    let work = |number: u64| {
        let mut totals = Totals::default();
        let mut seeds = (first + number..first + count).step_by(WORKERS as usize);
        seeds.try_for_each(|seed| compare(LONG, seed, &mut totals, false)).map(|_| totals)
    };
    let parts: Vec<_> = std::thread::scope(|scope| {
        let workers: Vec<_> =
            (0..WORKERS).map(|number| scope.spawn(move || work(number))).collect();
        workers.into_iter().map(|worker| worker.join().expect("no panic")).collect()
    });
    if let Some((_, report)) = parts.iter().filter_map(|part| part.as_ref().err()).min() {
        print!("{report}");
        return false;
    }
    let mut totals = Totals::default();
    parts.iter().flatten().for_each(|part| sum(&mut totals, part));
    let [frames, above, most, recovered, recovered_most] = totals.long;
    println!("long lists {count}: frames past the 40th {frames}; R above 60 {above}, 513 {most}");
    println!(
        "frames inside the premise {}, outside {}; nodes bad and recovered with R above 60 {}, 513 {}",
        totals.inside, totals.outside, recovered, recovered_most
    );
    if totals.long.contains(&0) || totals.outside == 0 {
        println!("something above never came up");
        return false;
    }
    println!("calls: {} equal", totals.calls);
    true
}

/// Two threads make the same calls at once, each on its own buffers, and compare each of them.
fn together(count: u64) -> bool {
    let start = &Barrier::new(WORKERS as usize);
    let work = move || {
        start.wait();
        let mut totals = Totals::default();
        for seed in 0.. {
            compare(USUAL, seed, &mut totals, false)?;
            compare(CARDS, seed, &mut totals, false)?;
            if totals.calls >= count {
                break;
            }
        }
        Ok(totals)
    };
    let parts: Vec<Result<Totals, Difference>> = std::thread::scope(|scope| {
        let workers: Vec<_> = (0..WORKERS).map(|_| scope.spawn(work)).collect();
        workers.into_iter().map(|worker| worker.join().expect("no panic")).collect()
    });
    if let Some((_, report)) = parts.iter().find_map(|part| part.as_ref().err()) {
        print!("in one of {WORKERS} threads: {report}");
        return false;
    }
    let parts: Vec<_> = parts.into_iter().flatten().collect();
    if parts.windows(2).any(|two| two[0] != two[1]) {
        println!("two threads with the same cases made other calls");
        return false;
    }
    println!("calls: {} equal in each of {WORKERS} threads at once", parts[0].calls);
    true
}

fn one(kind: Kind, seed: u64) -> bool {
    let mut totals = Totals::default();
    let compared = compare(kind, seed, &mut totals, false);
    match &compared {
        Ok(()) => println!("calls: {} equal", totals.calls),
        Err((_, report)) => print!("{report}"),
    }
    compared.is_ok()
}

fn usage() -> bool {
    eprintln!("{USAGE}");
    false
}

/// A count and, if it is given, the first seed.
fn numbers(arguments: &[&str], run: impl Fn(u64, u64) -> bool) -> bool {
    let numbers: Option<Vec<u64>> = arguments.iter().map(|text| text.parse().ok()).collect();
    match numbers.as_deref() {
        Some([count]) => run(*count, 0),
        Some([count, first]) => run(*count, *first),
        _ => usage(),
    }
}

pub fn main() -> ExitCode {
    let arguments: Vec<String> = std::env::args().skip(1).collect();
    let arguments: Vec<&str> = arguments.iter().map(String::as_str).collect();
    let usual = |count, first, bare| run(USUAL, print, count, first, bare);
    let cards = |count, first, bare| run(CARDS, print_cards, count, first, bare);
    let one = |kind, seed: &str| seed.parse().map_or_else(|_| usage(), |seed| one(kind, seed));
    let equal = match *arguments {
        ["--broken", tests, library, work] => broken::run(tests, library, work),
        ["--seed", seed] => one(USUAL, seed),
        ["--cards-seed", seed] => one(CARDS, seed),
        ["--long-seed", seed] => one(LONG, seed),
        ["--long", ref given @ ..] => numbers(given, long),
        ["--threads", count] => count.parse().map_or_else(|_| usage(), together),
        ["--cards", ref given @ ..] => numbers(given, |count, first| cards(count, first, false)),
        ["--bare", "--cards", ref given @ ..] => {
            numbers(given, |count, first| cards(count, first, true))
        }
        ["--bare", ref given @ ..] => numbers(given, |count, first| usual(count, first, true)),
        ref given => numbers(given, |count, first| usual(count, first, false)),
    };
    match equal {
        true => ExitCode::SUCCESS,
        false => ExitCode::FAILURE,
    }
}
