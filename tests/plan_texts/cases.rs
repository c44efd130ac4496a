// Plan texts with the refusal that document 01 (cams: request 2026-01, one and two nodes: 2026-04) gives each, worked out by hand: number, line, text, why.
// Written with `rustc -O cases.rs && ./cases DIR`, it makes DIR/data/texts and DIR/stdout of the program crates/plan_text_cases.
// A text in data/texts stands after its length in eight digits and a line feed.
// The program also writes each accepted plan back: 0 and 0 says that the bytes were those of the text.

use std::fs;

type Row = [u64; 6];

fn line(r: &Row) -> Vec<u8> {
    format!("{:>4}{:>4}{:>4}{:>4}{:>20}{:>20}\n", r[0], r[1], r[2], r[3], r[4], r[5]).into_bytes()
}

fn text(rows: &[Row]) -> Vec<u8> {
    rows.iter().flat_map(line).collect()
}

// Plan K of document 01.
fn k() -> Vec<Row> {
    vec![
        [0, 3, 2, 2, 1, 1],
        [1, 0, 0, 0, 0, 0],
        [1, 1, 0, 0, 0, 0],
        [10, 0, 0, 0, 0, 0],
        [11, 1, 1, 0, 1, 0],
        [20, 1, 1, 0, 0, 0],
        [30, 0, 1, 0, 0, 0],
    ]
}

// A plan with every kind: F = 2, C = 3, S = 2, A = 2; cells 0, 1 and 2 are voted in both frames.
fn all() -> Vec<Row> {
    vec![
        [0, 5, 2, 3, 2, 2],
        [1, 0, 0, 0, ONE, 0],
        [1, 1, 0, 0, MINUS_ZERO, 0],
        [1, 2, 0, 0, u64::MAX, 0],
        [10, 0, 0, 1, 0, 0],
        [11, 0, 1, 0, 2, 0],
        [12, 0, 2, 1, 0, 0],
        [13, 1, 0, 1, MINUS_ONE, 0],
        [14, 1, 1, 0, MINUS_ONE, ONE],
        [15, 1, 2, 1, ONE, TWO],
        [16, 1, 0, 2, 0, 0],
        [20, 0, 0, 0, 0, 0],
        [20, 0, 1, 0, 0, 0],
        [20, 0, 2, 0, 0, 0],
        [20, 1, 0, 0, 0, 0],
        [20, 1, 1, 0, 0, 0],
        [20, 1, 2, 0, 0, 0],
        [30, 0, 0, 0, 0, 0],
        [30, 1, 2, 0, 0, 0],
    ]
}

// The position of a cutter into cell 0, its cam into cell 1; F = 1, C = 2, nothing is voted.
fn cutter() -> Vec<Row> {
    vec![
        [0, 3, 1, 2, 1, 1],
        [1, 0, 0, 0, 0, 0],
        [1, 1, 0, 0, 0, 0],
        [10, 0, 0, 0, 0, 0],
        [16, 0, 1, 0, 0, 0],
        [30, 0, 1, 0, 0, 0],
    ]
}

const ONE: u64 = 0x3ff0_0000_0000_0000;
const TWO: u64 = 0x4000_0000_0000_0000;
const MINUS_ONE: u64 = 0xbff0_0000_0000_0000;
const MINUS_ZERO: u64 = 1 << 63;
const INFINITY: u64 = 0x7ff0_0000_0000_0000;
const NAN: u64 = 0x7ff8_0000_0000_0000;

fn with(mut rows: Vec<Row>, at: usize, row: Row) -> Vec<Row> {
    rows[at] = row;
    rows
}

fn and(mut rows: Vec<Row>, at: usize, row: Row) -> Vec<Row> {
    rows.insert(at, row);
    rows
}

fn without(mut rows: Vec<Row>, at: usize) -> Vec<Row> {
    rows.remove(at);
    rows
}

// The plan with another number of nodes.
fn nodes(n: u64, mut rows: Vec<Row>) -> Vec<Row> {
    rows[0][1] = n;
    rows
}

// A byte of a line, from 0.
fn byte(mut t: Vec<u8>, line: usize, at: usize, b: u8) -> Vec<u8> {
    t[57 * line + at] = b;
    t
}

// A column's bytes, right-justified already.
fn column(mut t: Vec<u8>, line: usize, from: usize, s: &str) -> Vec<u8> {
    t[57 * line + from..57 * line + from + s.len()].copy_from_slice(s.as_bytes());
    t
}

// The longest text: 7 nodes, 16 frames, 32 cells, 64 tasks, 512 votes, 8 actuators.
fn longest() -> Vec<Row> {
    let mut rows = vec![[0, 7, 16, 32, 16, 8]];
    rows.extend((0..32).map(|c| [1, c, 0, 0, 0, 0]));
    rows.extend((0..64).map(|t| [10, t / 4, t % 32, t % 16, 0, 0]));
    rows.extend((0..16).flat_map(|g| (0..32).map(move |c| [20, g, c, 0, 0, 0])));
    rows.extend((0..8).map(|a| [30, a, a, 0, 0, 0]));
    rows
}

fn cases() -> Vec<(u32, u32, Vec<u8>, &'static str)> {
    let mut l: Vec<(u32, u32, Vec<u8>, &'static str)> = Vec::new();
    let mut say = |number, line, t: Vec<u8>, why| l.push((number, line, t, why));
    // accepted
    say(0, 0, text(&k()), "plan K");
    say(0, 0, text(&all()), "every kind");
    say(0, 0, text(&longest()), "617 lines, 35,169 bytes");
    say(0, 0, text(&with(k(), 5, [20, 0, 1, 0, 0, 0])), "K voting cell 1 in frame 0");
    say(0, 0, text(&cutter()), "a cam");
    say(0, 0, text(&with(k(), 4, [16, 1, 1, 0, 0, 0])), "K with a cam for its Sum");
    say(0, 0, text(&and(k(), 5, [16, 1, 0, 1, 0, 0])), "a cam of the last cell");
    // accepted: one and two nodes, whatever the plan is
    for n in [1, 2] {
        say(0, 0, text(&nodes(n, k())), "K of one or two nodes");
        say(0, 0, text(&nodes(n, with(k(), 5, [20, 0, 1, 0, 0, 0]))), "the same, voting cell 1 in frame 0");
        say(0, 0, text(&nodes(n, all())), "every kind");
        say(0, 0, text(&nodes(n, cutter())), "a cam");
        say(0, 0, text(&[[0, n, 1, 1, 1, 1], [1, 0, 0, 0, 0, 0], [10, 0, 0, 0, 0, 0], [30, 0, 0, 0, 0, 0]]), "a Take and no vote: one or two nodes, and one of all else");
        say(0, 0, text(&[[0, n, 1, 1, 1, 1], [1, 0, 0, 0, u64::MAX, 0], [20, 0, 0, 0, 0, 0], [30, 0, 0, 0, 0, 0]]), "a vote and no task");
    }
    say(0, 0, text(&nodes(1, longest())), "617 lines and one node");
    for n in 4..8 {
        say(0, 0, text(&nodes(n, k())), "K of so many nodes");
    }
    // 1: the length
    say(1, 0, vec![], "length 0");
    say(1, 0, text(&k())[..398].to_vec(), "no multiple of 57");
    say(1, 0, text(&and(longest(), 617, [30, 8, 0, 0, 0, 0])), "618 lines");
    say(1, 0, vec![b'x'; 56], "56 bytes of anything");
    // 2: form
    say(2, 1, byte(text(&k()), 0, 56, b' '), "no line feed at the end of line 1");
    say(2, 2, byte(text(&k()), 1, 3, b'\t'), "a tab for a digit");
    say(2, 2, byte(text(&k()), 1, 0, b'\t'), "a tab for a blank");
    say(2, 3, byte(text(&k()), 2, 35, b' '), "a blank column");
    say(2, 4, byte(text(&k()), 3, 2, b'+'), "a sign");
    say(2, 4, column(text(&k()), 3, 0, "0010"), "leading zeros");
    say(2, 2, column(text(&k()), 1, 4, "  00"), "zero as 00");
    say(2, 2, column(text(&k()), 1, 16, "18446744073709551616"), "2^64");
    say(2, 1, column(text(&k()), 0, 36, "18446744073709551616"), "2^64 in the header: 2 before 3");
    say(2, 2, column(text(&k()), 1, 36, "99999999999999999999"), "too large in an unused column: 2 before 5");
    say(2, 5, column(text(&k()), 4, 0, "11  "), "digits not at the column's end");
    say(2, 5, column(text(&k()), 4, 0, "1 1 "), "a blank inside");
    say(2, 7, byte(text(&k()), 6, 56, b'\r'), "a carriage return at the end");
    say(2, 1, vec![0; 57], "zero bytes");
    say(2, 3, byte(text(&k()), 2, 16, 160), "byte 160 for a blank");
    // 2: each byte of a wide column of twenty digits and of a narrow one, in turn; only a blank at the front leaves a number
    let digits = column(text(&k()), 1, 16, "12345678901234567890");
    for at in 0..20 {
        for b in [b' ', b'/', b':', 0xb0] {
            let (number, line) = if at == 0 && b == b' ' { (0, 0) } else { (2, 2) };
            say(number, line, byte(digits.clone(), 1, 16 + at, b), "a byte among twenty digits");
        }
    }
    for at in 0..4 {
        for b in [b'/', b':', 0xa0, 0xb0] {
            say(2, 2, byte(text(&k()), 1, 4 + at, b), "a byte in a narrow column");
        }
    }
    // numbers of every length, behind blanks of every count; then numbers around 2^64, of which those below it are read
    for n in 1..21 {
        let ones = &"11111111111111111111"[..n];
        say(0, 0, column(text(&k()), 1, 16, &format!("{ones:>20}")), "so many digits");
        if n < 20 {
            say(0, 0, column(text(&k()), 1, 16, &format!("{:>20}", &"99999999999999999999"[..n])), "so many nines");
            say(2, 2, column(text(&k()), 1, 16, &format!("{:>20}", format!("0{ones}"))), "a zero before them");
        }
    }
    for (number, digits) in [
        (0, "18446744073709551615"),
        (0, "18446744073709551609"),
        (0, "18446744073709551599"),
        (0, "18446744073709549999"),
        (0, "10000000000000000000"),
        (2, "18446744073709551617"),
        (2, "18446744073709551619"),
        (2, "18446744073709551620"),
        (2, "18446744073709551700"),
        (2, "18446744073800000000"),
        (2, "18446744080000000000"),
        (2, "20000000000000000000"),
    ] {
        let line = if number == 0 { 0 } else { 2 };
        say(number, line, column(text(&k()), 1, 16, digits), "near 2^64");
    }
    // 3: the first line
    say(3, 1, text(&with(k(), 0, [1, 0, 0, 0, 0, 0])), "a cell line first");
    say(3, 1, text(&with(k(), 0, [99, 3, 2, 2, 1, 1])), "an unknown kind first");
    say(3, 1, text(&with(k(), 0, [0, 0, 2, 2, 1, 1])), "no node");
    say(3, 1, text(&with(k(), 0, [0, 8, 2, 2, 1, 1])), "eight nodes");
    say(3, 1, text(&with(k(), 0, [0, 10, 2, 2, 1, 1])), "ten nodes");
    say(3, 1, text(&with(k(), 0, [0, 257, 2, 2, 1, 1])), "256 + 1 nodes");
    say(3, 1, text(&with(k(), 0, [0, 258, 2, 2, 1, 1])), "256 + 2 nodes");
    say(3, 1, text(&with(k(), 0, [99, 1, 2, 2, 1, 1])), "an unknown kind first, and one node");
    say(3, 1, text(&with(k(), 0, [1, 2, 0, 0, 0, 0])), "a cell line first, its number two");
    say(3, 1, text(&with(k(), 0, [0, 1, 0, 2, 1, 1])), "one node, no frame");
    say(3, 1, text(&with(k(), 0, [0, 2, 2, 33, 1, 1])), "two nodes, 33 cells");
    say(3, 1, text(&with(k(), 0, [0, 1, 2, 2, 17, 1])), "one node, 17 sensors");
    say(3, 1, text(&with(k(), 0, [0, 2, 2, 2, 1, 9])), "two nodes, nine actuators");
    say(3, 1, text(&with(nodes(0, k()), 3, [17, 0, 0, 0, 0, 0])), "no node, and an unknown kind in a later line");
    say(3, 1, text(&nodes(0, without(k(), 5))), "no node, and no vote: 3 before 6");
    say(3, 1, text(&with(k(), 0, [0, 3, 0, 2, 1, 1])), "no frame");
    say(3, 1, text(&with(k(), 0, [0, 3, 17, 2, 1, 1])), "17 frames");
    say(3, 1, text(&with(k(), 0, [0, 3, 2, 0, 1, 1])), "no cell");
    say(3, 1, text(&with(k(), 0, [0, 3, 2, 33, 1, 1])), "33 cells");
    say(3, 1, text(&with(k(), 0, [0, 3, 2, 2, 0, 1])), "no sensor");
    say(3, 1, text(&with(k(), 0, [0, 3, 2, 2, 17, 1])), "17 sensors");
    say(3, 1, text(&with(k(), 0, [0, 3, 2, 2, (1 << 32) + 1, 1])), "2^32 + 1 sensors");
    say(3, 1, text(&with(k(), 0, [0, 3, 2, 2, 1, 0])), "no actuator");
    say(3, 1, text(&with(k(), 0, [0, 3, 2, 2, 1, 9])), "nine actuators");
    // 4: order
    say(4, 2, text(&and(k(), 1, k()[0])), "a second header");
    say(4, 2, text(&and(nodes(1, k()), 1, [0, 2, 2, 2, 1, 1])), "one node, and a second header with two");
    say(4, 2, text(&nodes(1, k())[..1]), "one node: a header alone");
    say(4, 7, text(&nodes(2, k())[..6]), "two nodes: the actuator is missing");
    say(4, 4, text(&with(k(), 3, [17, 0, 0, 0, 0, 0])), "kind 17");
    say(4, 5, text(&with(cutter(), 4, [17, 0, 1, 0, 0, 0])), "kind 17 with the columns of a cam");
    say(4, 5, text(&with(cutter(), 4, [272, 0, 1, 0, 0, 0])), "kind 16 + 256");
    say(4, 4, text(&with(k(), 3, [9, 0, 0, 0, 0, 0])), "kind 9");
    say(4, 6, text(&with(k(), 5, [21, 1, 1, 0, 0, 0])), "kind 21");
    say(4, 2, text(&with(k(), 1, [1, 1, 0, 0, 0, 0])), "cell 1 where 0 is due");
    say(4, 3, text(&with(k(), 2, [1, 2, 0, 0, 0, 0])), "cell 2 of two");
    say(4, 4, text(&and(k(), 3, [1, 2, 0, 0, 0, 0])), "a third cell of two");
    say(4, 3, text(&without(k(), 2)), "a task while a cell is due");
    say(4, 3, text(&and(cutter(), 2, cutter()[4])), "a cam while a cell is due");
    say(4, 2, text(&[k()[0], k()[5]]), "a vote while cells are due");
    say(4, 2, text(&[k()[0], k()[6]]), "an actuator while cells are due");
    say(4, 5, text(&with(with(k(), 3, k()[4]), 4, k()[3])), "falling frames");
    say(4, 6, text(&and(k(), 5, [16, 0, 1, 0, 0, 0])), "a cam of an earlier frame");
    say(4, 6, text(&with(with(k(), 4, k()[5]), 5, k()[4])), "a task after a vote");
    say(4, 7, text(&and(k(), 6, [16, 1, 1, 0, 0, 0])), "a cam after a vote");
    say(4, 7, text(&and(cutter(), 6, cutter()[4])), "a cam after an actuator");
    say(4, 7, text(&and(k(), 6, k()[5])), "a vote equal to the one before");
    say(4, 7, text(&and(k(), 6, [20, 1, 0, 0, 0, 0])), "a smaller cell in the same frame");
    say(4, 7, text(&and(k(), 6, [20, 0, 9999, 0, 0, 0])), "an earlier frame, and a cell out of range: 4 before 5");
    say(4, 8, text(&and(k(), 7, k()[5])), "a vote after an actuator");
    say(4, 7, text(&with(k(), 6, [30, 1, 1, 0, 0, 0])), "actuator 1 where 0 is due");
    say(4, 8, text(&and(k(), 7, [30, 1, 1, 0, 0, 0])), "a second actuator of one");
    say(4, 8, text(&and(k(), 7, k()[6])), "actuator 0 again");
    say(4, 7, text(&k()[..6]), "the actuator is missing: one past the last line");
    say(4, 2, text(&k()[..1]), "a header alone");
    say(4, 3, text(&k()[..2]), "a cell is missing");
    say(4, 19, text(&all()[..18]), "the second actuator is missing");
    say(4, 98, text(&and(longest(), 97, [10, 15, 99, 0, 0, 0])[..98]), "a 65th task, whatever else is wrong with it");
    say(4, 98, text(&and(longest(), 97, [16, 15, 0, 0, 0, 0])[..98]), "a cam as 65th task");
    // 5: range, unused columns, constants
    say(5, 2, text(&with(k(), 1, [1, 0, 1, 0, 0, 0])), "a cell's third column");
    say(5, 2, text(&with(k(), 1, [1, 0, 0, 1, 0, 0])), "a cell's fourth column");
    say(5, 2, text(&with(k(), 1, [1, 0, 0, 0, 7, 1])), "a cell's sixth column");
    say(5, 4, text(&with(k(), 3, [10, 0, 2, 0, 0, 0])), "a target out of range");
    say(5, 4, text(&with(k(), 3, [10, 0, 0, 1, 0, 0])), "a sensor out of range");
    say(5, 4, text(&with(k(), 3, [10, 0, 0, 0, 1, 0])), "a Take's fifth column");
    say(5, 4, text(&with(k(), 3, [10, 0, 0, 0, 0, 1])), "a Take's sixth column");
    say(5, 5, text(&with(k(), 4, [11, 2, 1, 0, 1, 0])), "a frame out of range");
    say(5, 5, text(&with(k(), 4, [11, 1, 1, 2, 1, 0])), "cell a out of range");
    say(5, 5, text(&with(k(), 4, [11, 1, 1, 0, (1 << 32) + 1, 0])), "cell b is 2^32 + 1");
    say(5, 5, text(&with(k(), 4, [12, 1, 1, 0, 1, 1])), "a Diff's sixth column");
    say(5, 8, text(&with(all(), 7, [13, 1, 0, 1, INFINITY, 0])), "an infinite factor");
    say(5, 8, text(&with(all(), 7, [13, 1, 0, 1, ONE, 1])), "a Scale's sixth column");
    say(5, 9, text(&with(all(), 8, [14, 1, 1, 0, ONE, MINUS_ONE])), "low above high");
    say(5, 9, text(&with(all(), 8, [14, 1, 1, 0, NAN, ONE])), "low is a NaN");
    say(0, 0, text(&with(all(), 8, [14, 1, 1, 0, 0, MINUS_ZERO])), "+0 to −0: equal as floats");
    say(0, 0, text(&with(all(), 8, [14, 1, 1, 0, MINUS_ZERO, 0])), "−0 to +0");
    say(5, 10, text(&with(all(), 9, [15, 1, 2, 1, ONE, MINUS_ZERO])), "cap −0");
    say(5, 10, text(&with(all(), 9, [15, 1, 2, 1, ONE, MINUS_ONE])), "cap −1");
    say(5, 10, text(&with(all(), 9, [15, 1, 2, 1, NAN, ONE])), "a rate that is a NaN");
    say(0, 0, text(&with(all(), 9, [15, 1, 2, 1, MINUS_ZERO, 0])), "rate −0, cap +0");
    say(5, 5, text(&with(cutter(), 4, [16, 0, 1, 0, 1, 0])), "a cam's fifth column, with a cell as a Sum has it");
    say(5, 5, text(&with(cutter(), 4, [16, 0, 1, 0, MINUS_ZERO, 0])), "a cam's fifth column with −0");
    say(5, 5, text(&with(cutter(), 4, [16, 0, 1, 0, 0, 1])), "a cam's sixth column");
    say(5, 5, text(&with(cutter(), 4, [16, 0, 1, 2, 0, 0])), "a cam's cell a out of range");
    say(5, 5, text(&with(cutter(), 4, [16, 0, 2, 0, 0, 0])), "a cam's target out of range");
    say(5, 5, text(&with(cutter(), 4, [16, 1, 1, 0, 0, 0])), "a cam's frame out of range");
    say(5, 6, text(&with(k(), 5, [20, 2, 1, 0, 0, 0])), "a vote's frame out of range");
    say(5, 6, text(&with(k(), 5, [20, 1, 2, 0, 0, 0])), "a vote's cell out of range");
    say(5, 6, text(&with(k(), 5, [20, 1, 1, 0, 1, 0])), "a vote's fifth column");
    say(5, 7, text(&with(k(), 6, [30, 0, 2, 0, 0, 0])), "an actuator's cell out of range");
    say(5, 7, text(&with(k(), 6, [30, 0, 1, 1, 0, 0])), "an actuator's fourth column");
    say(5, 4, text(&nodes(1, with(k(), 3, [10, 0, 2, 0, 0, 0]))), "one node: a target out of range");
    say(5, 6, text(&nodes(2, with(k(), 5, [20, 2, 1, 0, 0, 0]))), "two nodes: a vote's frame out of range");
    // the earliest line, and the order within a line
    say(4, 4, byte(text(&with(k(), 3, [17, 0, 0, 0, 0, 0])), 5, 3, b'x'), "4 in line 4 comes before 2 in line 6");
    say(5, 2, text(&with(with(k(), 1, [1, 0, 1, 0, 0, 0]), 4, [99, 0, 0, 0, 0, 0])), "5 in line 2 comes before 4 in line 5");
    say(2, 4, byte(text(&with(k(), 3, [17, 9999, 0, 0, 0, 0])), 3, 56, b' '), "2 before 4 and 5 in one line");
    say(4, 5, text(&with(with(k(), 3, k()[4]), 4, [10, 0, 9999, 9999, 5, 5])), "4 before 5 in one line");
    say(2, 1, byte(text(&with(k(), 0, [0, 8, 2, 2, 1, 1])), 0, 10, b'-'), "2 before 3 in line 1");
    say(2, 1, byte(text(&with(k(), 0, [0, 0, 2, 2, 1, 1])), 0, 10, b'-'), "2 before 3 in line 1, with no node");
    say(2, 1, column(text(&k()), 0, 4, "  01"), "one node as 01");
    say(2, 1, column(text(&k()), 0, 4, "  -1"), "a node less than none");
    say(2, 1, column(text(&k()), 0, 4, "    "), "no number of nodes");
    say(5, 4, text(&with(k(), 3, [10, 0, 2, 0, 0, 0])[..6]), "5 in a line before the missing actuator");
    // 6: no recovery period
    say(6, 0, text(&without(k(), 5)), "K without its vote");
    say(6, 0, text(&[[0, 3, 1, 1, 1, 1], [1, 0, 0, 0, 0, 0], [30, 0, 0, 0, 0, 0]]), "a cell that no task writes and no vote covers");
    for n in [1, 2] {
        say(6, 0, text(&nodes(n, without(k(), 5))), "K of one or two nodes without its vote");
        say(6, 0, text(&[[0, n, 1, 1, 1, 1], [1, 0, 0, 0, 0, 0], [30, 0, 0, 0, 0, 0]]), "a cell that no task writes and no vote covers: more nodes or fewer are no help");
    }
    say(0, 0, text(&[[0, 3, 1, 1, 1, 1], [1, 0, 0, 0, 0, 0], [10, 0, 0, 0, 0, 0], [30, 0, 0, 0, 0, 0]]), "a Take and no vote");
    say(6, 0, text(&[[0, 3, 1, 1, 1, 1], [1, 0, 0, 0, 0, 0], [16, 0, 0, 0, 0, 0], [30, 0, 0, 0, 0, 0]]), "a cam of its own target, and no vote");
    say(6, 0, text(&with(cutter(), 3, [16, 0, 0, 1, 0, 0])), "two cams, each of the other's target");
    say(0, 0, text(&with(with(cutter(), 3, cutter()[4]), 4, cutter()[3])), "a cam before the Take that it reads: R = 3");
    say(0, 0, text(&without(with(k(), 4, [16, 1, 1, 0, 0, 0]), 5)), "K without its vote, and a cam for its Sum: it does not read its target");
    l
}

fn main() {
    let dir = std::env::args().nth(1).expect("a folder");
    let (mut texts, mut answers) = (Vec::new(), String::new());
    for (number, line, t, why) in cases() {
        texts.extend(format!("{:>8}\n", t.len()).into_bytes());
        texts.extend(&t);
        answers += &format!("{:>4}{:>8}\n", number, line);
        if std::env::args().nth(2).is_some() {
            println!("{number} {line} {why}");
        }
    }
    fs::create_dir_all(format!("{dir}/data")).unwrap();
    fs::write(format!("{dir}/data/texts"), texts).unwrap();
    fs::write(format!("{dir}/stdout"), answers).unwrap();
}
