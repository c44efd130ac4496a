//! Plan texts: their lines and columns, and what the columns of each kind are called.

/// "Six decimal numbers, right-justified in columns of width 4, 4, 4, 4, 20, 20, then a line feed."
pub const WIDTHS: [usize; 6] = [4, 4, 4, 4, 20, 20];
pub const LINE: usize = 57;
pub const LONGEST: usize = 35_169;
pub const MOST_TASKS: usize = 64;

pub const HEADER: u64 = 0;
pub const CELL: u64 = 1;
pub const TAKE: u64 = 10;
pub const SUM: u64 = 11;
pub const DIFF: u64 = 12;
pub const SCALE: u64 = 13;
pub const LIMIT: u64 = 14;
pub const WIND: u64 = 15;
pub const CAM: u64 = 16;
pub const VOTE: u64 = 20;
pub const ACTUATOR: u64 = 30;

/// The numbers of a plan line, its kind first.
pub type Row = [u64; 6];

pub fn is_task(kind: u64) -> bool {
    (TAKE..=CAM).contains(&kind)
}

/// A task's word.
pub fn task_word(kind: u64) -> &'static str {
    ["take", "sum", "diff", "scale", "limit", "wind", "cam"][(kind - TAKE) as usize]
}

/// What a kind's line is.
pub fn kind_words(kind: u64) -> String {
    match kind {
        HEADER => String::from("a header"),
        CELL => String::from("a cell"),
        TAKE..=CAM => format!("a task ({})", task_word(kind)),
        VOTE => String::from("a vote"),
        ACTUATOR => String::from("an actuator"),
        _ => format!("of the unknown kind {kind}"),
    }
}

/// What the six columns of a kind's line hold; an empty name is a column that is 0.
pub fn columns(kind: u64) -> [&'static str; 6] {
    match kind {
        HEADER => ["kind", "nodes", "frames", "cells", "sensors", "actuators"],
        CELL => ["kind", "cell", "", "", "initial pattern", ""],
        TAKE => ["kind", "frame", "target", "sensor", "", ""],
        SUM | DIFF => ["kind", "frame", "target", "cell a", "cell b", ""],
        SCALE => ["kind", "frame", "target", "cell a", "factor", ""],
        LIMIT => ["kind", "frame", "target", "cell a", "low", "high"],
        WIND => ["kind", "frame", "target", "cell a", "rate", "cap"],
        CAM => ["kind", "frame", "target", "cell a", "", ""],
        VOTE => ["kind", "frame", "cell", "", "", ""],
        ACTUATOR => ["kind", "actuator", "cell", "", "", ""],
        _ => ["kind", "", "", "", "", ""],
    }
}

/// Where a column stands in its line.
pub fn place(column: usize) -> std::ops::Range<usize> {
    let start = WIDTHS[..column].iter().sum();
    start..start + WIDTHS[column]
}

/// Why a column is not of form.
pub enum Malformed {
    Blank,
    LeadingZero,
    Byte(u8),
    TooLarge,
}

/// The number of a column: blanks, then digits up to its end, no leading zero, at most 2^64 - 1.
pub fn number(column: &[u8]) -> Result<u64, Malformed> {
    let blanks = column.iter().take_while(|&&byte| byte == b' ').count();
    let digits = &column[blanks..];
    if digits.is_empty() {
        return Err(Malformed::Blank);
    }
    if let Some(&byte) = digits.iter().find(|byte| !byte.is_ascii_digit()) {
        return Err(Malformed::Byte(byte));
    }
    if digits.len() > 1 && digits[0] == b'0' {
        return Err(Malformed::LeadingZero);
    }
    let text = std::str::from_utf8(digits).expect("digits");
    text.parse().map_err(|_| Malformed::TooLarge)
}

/// The numbers of the lines of a text that was accepted.
pub fn rows(text: &[u8]) -> Vec<Row> {
    let row = |line: &[u8]| {
        std::array::from_fn(|column| number(&line[place(column)]).unwrap_or_default())
    };
    text.chunks_exact(LINE).map(row).collect()
}

/// A number right-justified in its column.
pub fn push(out: &mut Vec<u8>, value: u64, width: usize) {
    out.extend_from_slice(format!("{value:>width$}").as_bytes());
}

pub fn text(rows: &[Row]) -> Vec<u8> {
    let mut out = Vec::with_capacity(rows.len() * LINE);
    for row in rows {
        row.iter().zip(WIDTHS).for_each(|(&value, width)| push(&mut out, value, width));
        out.push(b'\n');
    }
    out
}
