//! Calls of libragbasalt.a, or the same of tests/reference, again and again on a plan: for counts of instructions, times and the stack. See bench/calls, bench/plan and bench/growth.

#[allow(dead_code)]
#[path = "../tests/reference/calls.rs"]
mod calls;
#[allow(dead_code)]
#[path = "../tests/reference/card.rs"]
mod card;
#[allow(dead_code)]
#[path = "../tests/reference/frame.rs"]
mod frame;
#[allow(dead_code)]
#[path = "../tests/reference/generate.rs"]
mod generate;
#[allow(dead_code)]
#[path = "../tests/reference/histories.rs"]
mod histories;
#[allow(dead_code)]
#[path = "../tests/calls/library.rs"]
mod library;
#[allow(dead_code)]
#[path = "../tests/reference/listing.rs"]
mod listing;
#[allow(dead_code)]
#[path = "../tests/reference/plan.rs"]
mod plan;
#[allow(dead_code)]
#[path = "../tests/reference/random.rs"]
mod random;

use library::*;
use std::hint::black_box;

const NAMES: [&str; 30] = [
    "plan_read", "plan_write", "plan_check", "plan_period", "message_size", "mailbox_size", "faults_size", "text_size",
    "node_power_on", "node_compute", "node_message", "node_vote", "node_setpoints", "single_frame",
    "system_power_on", "system_frame", "system_working", "system_equal", "plan_histories",
    "listing_start", "listing_next", "listing_refusal",
    "card_power_on", "card_read", "card_write", "card_deliver", "tick_compute", "tick_broadcast", "tick_vote", "tick_sync",
];

/// The first of the ticks; each sets the phase that it leaves, whose word is behind the memory's.
const TICKS: usize = 26;
const PHASE: usize = 33;

/// The byte of a card's page that is read, the flags, and the one that is written, the mask.
const FLAGS: u64 = 3;
const MASK: u64 = 4;

/// The frames of a history, the most that are listed.
const FRAMES: usize = 4;

/// Refusal 10 of the last line that can be refused.
const REFUSAL: u64 = 10 + 256 * 100_001;

/// The fill of a run line; fault bytes are these too.
const FILL: u8 = 0x5a;

/// What the calls are lent.
#[derive(Clone)]
struct Lent {
    text: Vec<u8>,
    words: Vec<u64>,
    out: Vec<u8>,
    memory: Vec<u64>,
    sensors: Vec<u64>,
    message: Vec<u8>,
    mailbox: Vec<u8>,
    place: Vec<u64>,
    system: Vec<u64>,
    mask: u64,
    faults: Vec<u8>,
    run: Vec<u64>,
    line: Vec<u8>,
    card: Vec<u64>,
    bins: Vec<u8>,
    byte: u8,
    number: usize,
}

impl Lent {
    /// A system and a run at power-on, a node before the plan's last frame, where the scan of the tasks is longest, and a mailbox of messages equal to its own, so that a vote takes it
    /// there again; a card of that node, whose bins hold these messages.
    fn of(text: Vec<u8>, mask: u64) -> Lent {
        let mut l = Lent {
            text,
            words: vec![0; 446],
            out: vec![0; 35_169],
            memory: vec![0; 33],
            sensors: vec![],
            message: vec![],
            mailbox: vec![],
            place: vec![],
            system: vec![0; 246],
            mask,
            faults: vec![],
            run: vec![0; 281],
            line: vec![],
            card: vec![0; 36],
            bins: vec![0; 1_813],
            byte: 0,
            number: 0,
        };
        assert_eq!(ours(19, &mut l), 0, "the plan is not accepted");
        l.message = vec![0; ours(4, &mut l) as usize];
        l.faults = vec![FILL; ours(6, &mut l) as usize];
        l.sensors = (0..l.words[3]).map(|k| (k as f64 + 0.5).to_bits()).collect();
        l.place = vec![0; l.words[4] as usize];
        let sensors: String = l.sensors.iter().map(|pattern| format!("{pattern:20}")).collect();
        l.line = format!("{mask:4}{FILL:4}{sensors}\n").into_bytes();
        for index in [8, 14] {
            assert_eq!(ours(index, &mut l), 0);
        }
        l.memory[0] = l.words[1].saturating_sub(2);
        for index in [9, 10] {
            assert_eq!(ours(index, &mut l), 0);
        }
        l.mailbox = l.message.repeat(l.words[0] as usize);
        l.card[..PHASE].copy_from_slice(&l.memory);
        for (bin, message) in l.bins.chunks_mut(1 + l.message.len()).zip(l.mailbox.chunks(l.message.len())) {
            bin[0] = 1;
            bin[1..].copy_from_slice(message);
        }
        l
    }
}

fn ours(index: usize, l: &mut Lent) -> u64 {
    enter(index, l);
    let plan = l.words.as_ptr();
    let (memory, system, run) = (l.memory.as_mut_ptr(), l.system.as_mut_ptr(), l.run.as_mut_ptr());
    let (text, length) = (l.text.as_ptr(), l.text.len());
    let (sensors, read) = (l.sensors.as_ptr(), l.sensors.len());
    let (place, actuators) = (l.place.as_mut_ptr(), l.place.len());
    let (out, room) = (l.out.as_mut_ptr(), l.out.len());
    let (card, bins) = (l.card.as_mut_ptr(), l.bins.as_mut_ptr());
    unsafe {
        match index {
            0 => ragbasalt_plan_read(text, length, l.words.as_mut_ptr()),
            1 => ragbasalt_plan_write(plan, out, room, &mut l.number),
            2 => ragbasalt_plan_check(plan),
            3 => ragbasalt_plan_period(plan, &mut l.number),
            4 => ragbasalt_message_size(plan) as u64,
            5 => ragbasalt_mailbox_size(plan) as u64,
            6 => ragbasalt_faults_size(plan) as u64,
            7 => ragbasalt_text_size(plan) as u64,
            8 => ragbasalt_node_power_on(plan, memory),
            9 => ragbasalt_node_compute(plan, memory, sensors, read),
            10 => ragbasalt_node_message(plan, memory, l.message.as_mut_ptr(), l.message.len()),
            11 => ragbasalt_node_vote(plan, memory, l.mailbox.as_ptr(), l.mailbox.len(), &mut l.number),
            12 => ragbasalt_node_setpoints(plan, memory, place, actuators),
            13 => ragbasalt_single_frame(plan, memory, sensors, read, place, actuators),
            14 => ragbasalt_system_power_on(plan, system),
            15 => ragbasalt_system_frame(plan, system, sensors, read, l.mask, l.faults.as_ptr(), l.faults.len(), place, actuators, &mut l.number),
            16 => ragbasalt_system_working(plan, system, l.mask, &mut l.number),
            17 => ragbasalt_system_equal(plan, system, memory, &mut l.number),
            18 => ragbasalt_plan_histories(plan, FRAMES, out, room, &mut l.number),
            19 => ragbasalt_listing_start(text, length, l.words.as_mut_ptr(), run),
            20 => ragbasalt_listing_next(plan, run, l.line.as_ptr(), l.line.len(), out, room, &mut l.number),
            21 => ragbasalt_listing_refusal(REFUSAL, out, room, &mut l.number),
            22 => ragbasalt_card_power_on(plan, card, bins),
            23 => ragbasalt_card_read(plan, card, FLAGS, &mut l.byte),
            24 => ragbasalt_card_write(plan, card, MASK, 3),
            25 => ragbasalt_card_deliver(plan, card, bins, l.words[0] - 1, l.message.as_ptr(), l.message.len()),
            _ => ragbasalt_card_tick(plan, card, bins, sensors, read, place, actuators),
        }
    }
}

/// Before a delivery and a tick: the phase in which a delivery is taken, and that which the tick leaves.
fn enter(index: usize, l: &mut Lent) {
    if index == TICKS - 1 {
        l.card[PHASE] = 1;
    }
    if index >= TICKS {
        l.card[PHASE] = (index - TICKS) as u64;
    }
}

/// The reference takes a plan: its words are read first, as ours are.
fn reference(index: usize, l: &mut Lent) -> u64 {
    enter(index, l);
    let plan = if [0, 19, 21].contains(&index) { None } else { calls::plan_of(&l.words) };
    let plan = plan.as_ref();
    match index {
        0 => calls::plan_read(&l.text, &mut l.words),
        1 => calls::plan_write(plan, &mut l.out, &mut l.number),
        2 => calls::plan_check(plan),
        3 => calls::plan_period(plan, &mut l.number),
        4 => calls::message_size(plan) as u64,
        5 => calls::mailbox_size(plan) as u64,
        6 => calls::faults_size(plan) as u64,
        7 => calls::text_size(plan) as u64,
        8 => calls::node_power_on(plan, &mut l.memory),
        9 => calls::node_compute(plan, &mut l.memory, &l.sensors),
        10 => calls::node_message(plan, &l.memory, &mut l.message),
        11 => calls::node_vote(plan, &mut l.memory, &l.mailbox, &mut l.number),
        12 => calls::node_setpoints(plan, &l.memory, &mut l.place),
        13 => calls::single_frame(plan, &mut l.memory, &l.sensors, &mut l.place),
        14 => calls::system_power_on(plan, &mut l.system),
        15 => calls::system_frame(plan, &mut l.system, &l.sensors, l.mask, &l.faults, &mut l.place, &mut l.number),
        16 => calls::system_working(plan, &l.system, l.mask, &mut l.number),
        17 => calls::system_equal(plan, &l.system, &l.memory, &mut l.number),
        18 => calls::plan_histories(plan, FRAMES, &mut l.out, &mut l.number),
        19 => calls::listing_start(&l.text, &mut l.words, &mut l.run),
        20 => calls::listing_next(plan, &mut l.run, &l.line, &mut l.out, &mut l.number),
        21 => calls::listing_refusal(REFUSAL, &mut l.out, &mut l.number),
        22 => calls::card_power_on(plan, &mut l.card, &mut l.bins),
        23 => calls::card_read(plan, &l.card, FLAGS, &mut l.byte),
        24 => calls::card_write(plan, &mut l.card, MASK, 3),
        25 => calls::card_deliver(plan, &mut l.card, &mut l.bins, l.words[0] - 1, &l.message),
        _ => calls::card_tick(plan, &mut l.card, &mut l.bins, &l.sensors, &mut l.place),
    }
}

const PAINT: u64 = 0x5041_494e_5445_4421;

/// How many bytes below its caller's frame a call writes: the stack below is painted first. What a call only reserves is not seen, but then it is not needed.
#[inline(never)]
fn stack(index: usize, l: &mut Lent) -> usize {
    const WORDS: usize = 65_536;
    let here = 0u64;
    let top = (&raw const here).addr() & !7;
    let base = (top - 1024 - 8 * WORDS) as *mut u64;
    for k in 0..WORDS {
        unsafe { base.add(k).write_volatile(PAINT) };
    }
    black_box(ours(index, l));
    let clean = (0..WORDS).take_while(|&k| unsafe { base.add(k).read_volatile() } == PAINT).count();
    top - base as usize - 8 * clean
}

fn main() {
    let arguments: Vec<String> = std::env::args().collect();
    let [_, what, names, times, file, mask] = &arguments[..] else {
        panic!("usage: calls ours|reference|time|stack NAME,.. TIMES PLAN MASK");
    };
    let place = |name: &str| NAMES.iter().position(|n| *n == name).expect("a call's name");
    let round: Vec<usize> = names.split(',').map(place).collect();
    let times: u64 = times.parse().expect("a count");
    let mask = mask.parse().expect("a mask");
    let mut l = Lent::of(std::fs::read(file).expect("a plan"), mask);
    let begun = std::time::Instant::now();
    match what.as_str() {
        "ours" | "time" => {
            for _ in 0..times {
                for &index in &round {
                    black_box(ours(index, &mut l));
                }
            }
        }
        "reference" => {
            for _ in 0..times {
                for &index in &round {
                    black_box(reference(index, &mut l));
                }
            }
        }
        _ => {
            let used = std::thread::Builder::new().stack_size(4 << 20).spawn(move || stack(round[0], &mut l)).unwrap().join().unwrap();
            println!("{used}");
        }
    }
    if what == "time" {
        println!("{}", begun.elapsed().as_nanos() as u64 / times);
    }
}
