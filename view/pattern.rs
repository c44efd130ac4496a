//! Patterns as people read and write them: the 64 bits of a binary64 value, in decimals.

/// The quiet form of a pattern's value: the shortest decimal that reads back to the same pattern,
/// or for a NaN or an infinity the pattern itself, `0x` and 16 hexadecimal digits.
pub fn written(pattern: u64) -> String {
    let value = f64::from_bits(pattern);
    match value.is_finite() {
        true => decimal(value),
        false => format!("0x{pattern:016x}"),
    }
}

/// The same for tables and pictures, where nothing is read back.
pub fn shown(pattern: u64) -> String {
    let value = f64::from_bits(pattern);
    match value.is_nan() {
        true => String::from("NaN"),
        false if value.is_infinite() => String::from(if value > 0.0 { "inf" } else { "-inf" }),
        false => decimal(value),
    }
}

/// The fewest digits that read back to the same value; with an exponent only where the plain form
/// would be long: below 10^-5 or from 10^16 on.
pub fn decimal(value: f64) -> String {
    let size = value.abs();
    match size == 0.0 || (1e-5..1e16).contains(&size) {
        true => format!("{value}"),
        false => format!("{value:e}"),
    }
}

/// The pattern of a word: `0x` and up to 16 hexadecimal digits, or a decimal number, which is
/// rounded to nearest, ties to even.
pub fn read(word: &str) -> Result<u64, String> {
    if let Some(digits) = word.strip_prefix("0x") {
        let right =
            (1..=16).contains(&digits.len()) && digits.bytes().all(|b| b.is_ascii_hexdigit());
        return match right {
            true => Ok(u64::from_str_radix(digits, 16).expect("up to 16 hexadecimal digits")),
            false => Err(String::from("a pattern is 0x and 1 to 16 hexadecimal digits")),
        };
    }
    if !is_decimal(word) {
        return Err(String::from(
            "a value is a decimal number as 20, -0.5 or 1e-9, or a pattern: NaN is 0x7ff8000000000000, infinity 0x7ff0000000000000, -infinity 0xfff0000000000000",
        ));
    }
    let value: f64 = word.parse().expect("a decimal number");
    match value.is_finite() {
        true => Ok(value.to_bits()),
        false => Err(String::from(
            "the number is beyond the largest value; infinity is 0x7ff0000000000000",
        )),
    }
}

/// [-] digits [. digits] [e [-] digits]
fn is_decimal(word: &str) -> bool {
    let unsigned = word.strip_prefix('-').unwrap_or(word);
    let (number, exponent) = match unsigned.split_once(['e', 'E']) {
        Some((number, exponent)) => (number, Some(exponent)),
        None => (unsigned, None),
    };
    let digits = |part: &str| !part.is_empty() && part.bytes().all(|b| b.is_ascii_digit());
    let (whole, fraction) = match number.split_once('.') {
        Some((whole, fraction)) => (whole, Some(fraction)),
        None => (number, None),
    };
    let exponent = exponent.map(|part| part.strip_prefix(['-', '+']).unwrap_or(part));
    digits(whole) && fraction.is_none_or(digits) && exponent.is_none_or(digits)
}
