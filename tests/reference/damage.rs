//! Damages to plan texts and runs. A damage need not lead to the refusal it is named after, and
//! some leave the text whole: what then has to be printed, the reference says.
//!
//! `way` picks the kind of damage. Cases of one class count it up, so that each way comes.

use std::ops::Range;

use super::generate::{plan_text, push_columns};
use super::plan::{Row, LINE, LONGEST, MOST_TASKS, WIDTHS};
use super::random::Random;

/// Bytes that are neither digit nor blank.
const ODD_BYTES: &[u8] = b"\x00\t\n\r\xa0\xff-/:a";

/// Numbers of 20 digits from 2^64 on.
const TOO_LARGE: [&[u8]; 5] = [
    b"18446744073709551616",
    b"18446744073709551617",
    b"18446744073709551626",
    b"20000000000000000000",
    b"99999999999999999999",
];

/// Spoils the form of a column; in many ways the number can still be guessed.
fn column(r: &Random, column: &mut [u8], way: usize) {
    let width = column.len();
    let blanks = column.iter().take_while(|&&byte| byte == b' ').count();
    match way % 10 {
        0 => column.fill(b' '),
        1 => column[r.below(width - 1)..].fill(b'0'),
        2 => column[width - 3..].copy_from_slice(b"1 2"),
        3 if width == 20 => column.copy_from_slice(r.pick(&TOO_LARGE)),
        4 if blanks > 0 => column[blanks - 1] = b'0',
        5 if blanks > 0 => column.rotate_left(1),
        6 if blanks > 0 => column[blanks - 1] = r.pick(b"+-"),
        7 | 8 if blanks > 0 => column[r.pick(&[0, blanks - 1])] = r.pick(ODD_BYTES),
        _ => column[r.pick(&[width - 1, r.below(width)])] = r.pick(ODD_BYTES),
    }
}

/// Spoils the form of one plan line: a column, or its line feed changed or moved. The length of
/// the text stays.
fn form_at(r: &Random, text: &mut [u8], line: usize, way: usize) {
    let start = line * LINE;
    let end = start + LINE - 1;
    let number = way % 8;
    match (number, way / 8 % 3) {
        (6, _) => text[end] = r.pick(b" \r\r\x00\xff0"),
        (7, 0) if text.len() > end + 1 => text.swap(end, end + 1),
        (7, 1) => text.swap(end - 1, end),
        _ => {
            let number = number % 6;
            let from = start + WIDTHS[..number].iter().sum::<usize>();
            column(r, &mut text[from..from + WIDTHS[number]], way / 8);
        }
    }
}

pub fn form(r: &Random, rows: Vec<Row>, way: usize) -> Vec<u8> {
    let mut text = plan_text(&rows);
    form_at(r, &mut text, line_of_kind(r, &rows), way);
    text
}

/// A line of some kind, each kind coming as often; the first and last lines now and then.
fn line_of_kind(r: &Random, rows: &[Row]) -> usize {
    line_of(r, rows, |row| row[0])
}

/// The same with the blocks of the text (header and cells, tasks, votes, actuators).
fn line_of_block(r: &Random, rows: &[Row]) -> usize {
    line_of(r, rows, |row| row[0] / 10)
}

fn line_of(r: &Random, rows: &[Row], group: impl Fn(&Row) -> u64) -> usize {
    let mut groups: Vec<_> = rows.iter().map(&group).collect();
    groups.sort();
    groups.dedup();
    let chosen = r.pick(&groups);
    let lines: Vec<_> = (0..rows.len()).filter(|&line| group(&rows[line]) == chosen).collect();
    match r.below(10) {
        0 => 0,
        1 => rows.len() - 1,
        _ => r.pick(&lines),
    }
}

pub fn length(r: &Random, mut text: Vec<u8>, way: usize) -> Vec<u8> {
    let last = text[text.len() - LINE..].to_vec();
    let whole = text.len();
    match way % 10 {
        0 => text.clear(),
        1 => text.truncate(whole - 1),
        2 => text.push(b'\n'),
        3 => text.insert(r.below(whole), b' '),
        4 => drop(text.remove(r.below(whole))),
        5 => text.truncate(r.below(whole)),
        6 => text.extend_from_slice(&last[1..]),
        // Filled up to the longest length, or to a length above it.
        filled => {
            let length = [LONGEST, LONGEST + LINE, LONGEST + r.between(1, 3 * LINE)][filled - 7];
            (text.len()..length).for_each(|at| text.push(last[at % LINE]));
        }
    }
    text
}

pub fn header(r: &Random, mut rows: Vec<Row>, way: usize) -> Vec<u8> {
    header_at(r, &mut rows[0], way);
    plan_text(&rows)
}

/// Another kind, or a header number at or just outside its limits, or one that is right in its
/// low bits only.
fn header_at(r: &Random, row: &mut Row, way: usize) {
    const LIMITS: [[u64; 2]; 5] = [[1, 7], [1, 16], [1, 32], [1, 16], [1, 8]];
    let column = way % 6;
    if column == 0 {
        row[0] = r.pick(&[1, 2, 10, 15, 16, 20, 30, 99, 256, 9999]);
        return;
    }
    let more = |step: u64| row[column].wrapping_add(step);
    let [low, high] = LIMITS[column - 1];
    row[column] = match way / 6 % 8 {
        0 => low - 1,
        1 => high + 1,
        2 => low,
        3 => high,
        4 => more(256).min(9999),
        5 if column > 3 => more(1 << 32),
        6 if column > 3 => more(1 << 16),
        7 if column > 3 => r.pick(&[1 << 32, 1 << 63, u64::MAX]),
        _ => r.pick(&[0, low - 1, high + 1, 9999]),
    };
}

pub fn order(r: &Random, mut rows: Vec<Row>, way: usize) -> Vec<u8> {
    order_at(r, &mut rows, way);
    plan_text(&rows)
}

fn order_at(r: &Random, rows: &mut Vec<Row>, way: usize) {
    let [line, other] = [line_of_block(r, rows), line_of_block(r, rows)];
    let row = rows[line];
    match way % 16 {
        0 | 1 => unknown_kind(r, rows, way % 2 + way / 16 * 2),
        2 => rows.swap(line, other),
        3 => rows.swap(line, line.saturating_sub(1)),
        4 => rows.insert(line, row),
        5 => rows.insert(other + 1, row),
        6 => drop(rows.remove(line)),
        7 => rows.insert(line + 1, rows[0]),
        8 => rows.truncate(line.max(1)),
        9 | 10 => more_tasks(r, rows),
        11 => more_actuators(r, rows),
        12 => late(r, rows),
        13 => line_order_at(r, rows, line),
        _ => unsorted(r, rows),
    }
}

/// Unknown kinds, each with the block of a kind close to it or with the same low bits.
#[rustfmt::skip]
const UNKNOWN: [(u64, u64); 14] = [
    (0, 2), (0, 3), (0, 257), (1, 9), (1, 17), (1, 19), (1, 266), (1, 272), (2, 21), (2, 276),
    (3, 29), (3, 31), (3, 99), (3, 9999),
];

fn unknown_kind(r: &Random, rows: &mut [Row], way: usize) {
    let (block, kind) = UNKNOWN[way % UNKNOWN.len()];
    let lines: Vec<_> = (1..rows.len()).filter(|&line| rows[line][0] / 10 == block).collect();
    if !lines.is_empty() {
        rows[r.pick(&lines)][0] = kind;
    }
}

/// Another kind, known or not, or another number for a cell, actuator or frame.
fn line_order_at(r: &Random, rows: &mut [Row], line: usize) {
    let [_, _, _, cells, _, actuators] = rows[0];
    let row = &mut rows[line];
    match r.below(3) {
        0 => row[0] = r.pick(&UNKNOWN).1,
        1 => row[0] = r.pick(&[0, 1, 10, 11, 12, 13, 14, 15, 16, 20, 30]),
        _ => {
            let others = [row[1] + 1, row[1].saturating_sub(1), cells, actuators, row[1] + 256];
            row[1] = r.pick(&others).min(9999);
        }
    }
}

/// Tasks up to the 64th or 65th, the last of them with or without a fault of its own.
fn more_tasks(r: &Random, rows: &mut Vec<Row>) {
    let tasks = rows.iter().filter(|row| (10..=16).contains(&row[0])).count();
    let wanted = r.between(MOST_TASKS, MOST_TASKS + 1);
    let end = rows.iter().take_while(|row| row[0] < 20).count();
    for _ in tasks..wanted {
        rows.insert(end, [10, rows[0][2].saturating_sub(1), 0, 0, 0, 0]);
    }
    if r.one_in(3) && tasks < wanted {
        rows[end + wanted - tasks - 1][2] = 9999;
    }
}

/// Lines after the last actuator.
fn more_actuators(r: &Random, rows: &mut Vec<Row>) {
    let next = [30, rows[0][5].min(9999), 0, 0, 0, 0];
    let extra = r.pick(&[next, next, rows[1], [30, 0, 9999, 0, 0, 0]]);
    (0..r.between(1, 2)).for_each(|_| rows.push(extra));
}

/// The last cell, task or vote put among or after the lines of later blocks.
fn late(r: &Random, rows: &mut Vec<Row>) {
    let block = r.below(3) as u64;
    let last = rows.iter().rposition(|row| row[0] / 10 == block).unwrap_or(0);
    let row = rows.remove(last);
    rows.insert(r.between(last, rows.len()), row);
}

/// Two tasks or two votes one after another that fall or are equal, also with a cell that is out
/// of range.
fn unsorted(r: &Random, rows: &mut [Row]) {
    let block = r.pick(&[1, 2, 2]);
    let both = |line: &usize| rows[*line - 1][0] / 10 == block && rows[*line][0] / 10 == block;
    let lines: Vec<_> = (1..rows.len()).filter(both).collect();
    if lines.is_empty() {
        return;
    }
    let line = r.pick(&lines);
    let before = rows[line - 1];
    match r.below(5) {
        0 => rows.swap(line - 1, line),
        1 => rows[line] = before,
        2 => rows[line - 1][1] = rows[0][2].saturating_sub(1),
        _ => {
            rows[line][1] = before[1].saturating_sub(r.pick(&[0, 1, 1]));
            rows[line][2] = r.pick(&[0, before[2], rows[0][3], 9999]).min(9999);
        }
    }
}

/// The kinds whose lines have columns that refusal 5 looks at.
pub const KINDS: [u64; 10] = [1, 10, 11, 12, 13, 14, 15, 16, 20, 30];

/// Damages a line of kind number `way` modulo 10, which the plan should have.
pub fn rules(r: &Random, mut rows: Vec<Row>, way: usize) -> Vec<u8> {
    let kind = KINDS[way % KINDS.len()];
    let lines: Vec<_> = (0..rows.len()).filter(|&line| rows[line][0] == kind).collect();
    rules_at(r, &mut rows, r.pick(&lines), way / KINDS.len());
    plan_text(&rows)
}

/// What columns 2 to 6 hold: a frame, a cell, a sensor, a constant (x), nothing (0), or what
/// can't be against the rules (.).
fn roles(kind: u64) -> &'static [u8; 5] {
    match kind {
        1 => b".00.0",
        10 => b"fcs00",
        11 | 12 => b"fccc0",
        13 => b"fccx0",
        14 | 15 => b"fccxx",
        16 => b"fcc00",
        20 => b"fc000",
        30 => b".c000",
        _ => b"....0",
    }
}

/// An index out of range, an unused column that is not 0, a constant against the rules.
fn rules_at(r: &Random, rows: &mut [Row], line: usize, way: usize) {
    let [_, _, frames, cells, sensors, _] = rows[0];
    let row = &mut rows[line];
    let roles = roles(row[0]);
    let columns: Vec<_> = (1..6).filter(|&column| roles[column - 1] != b'.').collect();
    let (column, way) = (columns[way % columns.len()], way / columns.len());
    let wide = column > 3;
    row[column] = match roles[column - 1] {
        b'f' => wrong_index(row[column], frames, wide, way),
        b'c' => wrong_index(row[column], cells, wide, way),
        b's' => wrong_index(row[column], sensors, wide, way),
        b'0' if wide => r.pick(&[1, 1, 1 << 32, 1 << 63, u64::MAX]),
        b'0' => r.pick(&[1, 1, 9999]),
        _ => return constant_at(r, row, column, way),
    };
}

/// An index just out of range, or one that is right in its low bits only.
fn wrong_index(right: u64, size: u64, wide: bool, way: usize) -> u64 {
    let more = |step: u64| right.wrapping_add(step);
    let narrow = [size, size.wrapping_add(1), more(256), size, 9999];
    let beyond = [size, more(1 << 32), more(1 << 16), more(256), 1 << 63, u64::MAX];
    if wide {
        beyond[way % beyond.len()]
    } else {
        narrow[way % narrow.len()].min(9999)
    }
}

/// A constant that is not finite, low above high, a cap with its sign bit set.
fn constant_at(r: &Random, row: &mut Row, column: usize, way: usize) {
    const INFINITY: u64 = 0x7FF << 52;
    match (row[0], column, way % 5) {
        (_, _, 0) => row[column] = INFINITY,
        (_, _, 1) => row[column] = INFINITY | 1 << 63,
        (14, 4, 2) => row.swap(4, 5),
        (14, 5, 2) => row[4] = row[5].wrapping_add(1),
        (14, _, 3) => [row[4], row[5]] = [1.0f64, -1.0].map(f64::to_bits),
        (15, 5, 2) => row[5] |= 1 << 63,
        (15, 5, 3) => row[5] = 1 << 63,
        _ => row[column] = r.pick(&[INFINITY + 1, INFINITY | 1 << 51, u64::MAX]),
    }
}

/// Two to four damages, in one line or in different lines.
pub fn several(r: &Random, mut rows: Vec<Row>, way: usize) -> Vec<u8> {
    let line = line_of_kind(r, &rows);
    let [rules, order, form] =
        [[true, true, false], [true, false, true], [false, true, true], [true; 3]][way % 4];
    if rules {
        value_at(r, &mut rows, line);
    }
    if order {
        line_order_at(r, &mut rows, line);
    }
    let mut lines = vec![line];
    while r.one_in(2) && lines.len() < 3 {
        lines.push(line_of_kind(r, &rows));
        value_at(r, &mut rows, lines[lines.len() - 1]);
    }
    if r.one_in(4) {
        order_at(r, &mut rows, r.below(16));
    }
    let mut text = plan_text(&rows);
    if form {
        form_at(r, &mut text, r.pick(&lines).min(rows.len() - 1), r.below(240));
    }
    if r.one_in(12) {
        text = length(r, text, r.below(10));
    }
    text
}

fn value_at(r: &Random, rows: &mut [Row], line: usize) {
    if line == 0 {
        header_at(r, &mut rows[0], r.below(48));
    } else {
        rules_at(r, rows, line, r.below(300));
    }
}

/// Damages a run of one line or more, at its first, last or some line, once or twice.
pub fn run(r: &Random, text: &mut Vec<u8>, nodes: usize, sensors: usize, way: usize) {
    let length = 9 + 20 * sensors;
    for way in [way, r.below(18)].into_iter().take(r.pick(&[1, 1, 1, 2])) {
        let lines = text.len() / length;
        if lines > 0 {
            let line = r.pick(&[0, lines - 1, r.below(lines)]);
            run_line(r, text, line * length..(line + 1) * length, nodes, way);
        }
    }
}

/// Damages a line of a run, counted from 0; a damage to the end of a run lets the run end with this
/// line.
pub fn run_at(
    r: &Random,
    text: &mut Vec<u8>,
    line: usize,
    nodes: usize,
    sensors: usize,
    way: usize,
) {
    let length = 9 + 20 * sensors;
    if way % 18 > 14 {
        text.truncate((line + 1) * length);
    }
    run_line(r, text, line * length..(line + 1) * length, nodes, way);
}

/// Damages the run line that stands at `line` in the text.
fn run_line(r: &Random, text: &mut Vec<u8>, line: Range<usize>, nodes: usize, way: usize) {
    let (start, end) = (line.start, line.end - 1);
    let some = r.between(start, end);
    match way % 18 {
        0 | 1 => {
            let mask = r.pick(&[1 << nodes, 1 << nodes, (1 << nodes) + 1, 256, 999, 9999]);
            number(&mut text[start..start + 4], mask);
        }
        2 | 3 => {
            let fill = r.pick(&[256, 256, 257, 511, 512, 999, 9999]);
            number(&mut text[start + 4..start + 8], fill);
        }
        4 => column(r, &mut text[start..start + 4], r.below(10)),
        5 => column(r, &mut text[start + 4..start + 8], r.below(10)),
        6 | 7 => {
            let from = start + 8 + 20 * r.below((end - start) / 20);
            column(r, &mut text[from..from + 20], r.below(10));
        }
        8 => drop(text.remove(some)),
        9 => text.insert(some, r.pick(b" 0\r\n")),
        10 => text.insert(end, r.pick(b"\r\r 0")),
        11 => text[end] = r.pick(b"\r 0\x00\xff"),
        // One sensor fewer, or one more.
        12 if r.one_in(2) => drop(text.drain(end - 20..end)),
        12 => drop(text.splice(end..end, *b"                   0")),
        13 => text.insert(start, b'\n'),
        14 => text[some] = r.pick(ODD_BYTES),
        _ => tail(r, text, line.len()),
    }
}

fn number(column: &mut [u8], value: u64) {
    let mut digits = Vec::new();
    push_columns(&mut digits, &[value], [column.len()].into_iter());
    column.copy_from_slice(&digits[..column.len()]);
}

/// A last line without its line feed, in part, with something after it, or without any end.
fn tail(r: &Random, text: &mut Vec<u8>, length: usize) {
    let whole = text.len();
    match r.below(7) {
        0 | 1 => text.truncate(whole - 1),
        2 => text.truncate(whole - r.between(1, length)),
        3 => text.push(b'\n'),
        4 => text.push(r.pick(b" 0\r\x00")),
        5 => text.extend(std::iter::repeat(b' ').take(r.between(1, 3 * length))),
        _ => text.extend(std::iter::repeat(b'7').take(r.between(1000, 20_000))),
    }
}
