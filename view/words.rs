//! The words of a named file, and what is wrong with one. docs/NAMED.md has the grammar.

use super::pattern;

/// An error of a named file: its line from 1 (0: the whole file), the word meant, what is wrong.
#[derive(Debug, PartialEq, Eq)]
pub struct Mistake {
    pub line: usize,
    pub word: String,
    pub says: String,
}

impl Mistake {
    pub fn report(&self, file: &str) -> String {
        match (self.line, self.word.as_str()) {
            (0, _) => format!("{file}: {}\n", self.says),
            (line, "") => format!("{file}:{line}: {}\n", self.says),
            // A word as it is, but for letters that a terminal would act on.
            (line, word) => format!("{file}:{line}: '{}': {}\n", word.escape_debug(), self.says),
        }
    }
}

/// The largest number that a column of width 4 shows.
const MOST: usize = 9999;

pub fn mistake<T>(line: usize, word: &str, says: impl Into<String>) -> Result<T, Mistake> {
    Err(Mistake { line, word: String::from(word), says: says.into() })
}

/// The words of a line, `:` and `=` by themselves, without its comment.
pub fn words(line: &str) -> Vec<&str> {
    let line = line.split('#').next().unwrap_or_default();
    let mut words = Vec::new();
    for part in line.split_whitespace() {
        let mut rest = part;
        while let Some(at) = rest.find([':', '=']) {
            let both = [&rest[..at], &rest[at..at + 1]];
            words.extend(both.into_iter().filter(|word| !word.is_empty()));
            rest = &rest[at + 1..];
        }
        words.extend(Some(rest).filter(|rest| !rest.is_empty()));
    }
    words
}

pub fn is_name(word: &str) -> bool {
    let mut letters = word.chars();
    letters.next().is_some_and(|first| first.is_alphabetic() || first == '_')
        && letters.all(|letter| letter.is_alphanumeric() || "_-.".contains(letter))
}

pub fn is_number(word: &str) -> bool {
    !word.is_empty() && word.bytes().all(|byte| byte.is_ascii_digit())
}

/// A whole number that has room in a column of width 4; `limits` tells what the plan allows.
pub fn small(line: usize, word: &str, what: &str, limits: &str) -> Result<u64, Mistake> {
    match word.parse::<u64>() {
        Ok(number) if is_number(word) && number <= MOST as u64 => Ok(number),
        _ => mistake(line, word, format!("{what} is a whole number, {limits}")),
    }
}

pub fn value(line: usize, word: &str) -> Result<u64, Mistake> {
    pattern::read(word).or_else(|says| mistake(line, word, says))
}

/// Declares names, which have to be new in their list.
pub fn declare(
    list: &mut Vec<String>,
    line: usize,
    words: &[&str],
    what: &str,
) -> Result<(), Mistake> {
    for &word in words {
        if !is_name(word) {
            let says =
                "a name begins with a letter or _, and has letters, digits, _, - and . in it";
            return mistake(line, word, says);
        }
        if list.iter().any(|name| name == word) {
            return mistake(line, word, format!("another {what} has this name already"));
        }
        if list.len() == MOST {
            return mistake(line, word, format!("a plan has not so many {what}s"));
        }
        list.push(String::from(word));
    }
    Ok(())
}

/// How many letters have to be changed, put in or left out to make one word of the other.
fn distance(left: &str, right: &str) -> usize {
    let right: Vec<char> = right.chars().collect();
    let mut row: Vec<usize> = (0..=right.len()).collect();
    for (i, letter) in left.chars().enumerate() {
        let mut before = row[0];
        row[0] = i + 1;
        for (j, other) in right.iter().enumerate() {
            let changed = before + usize::from(letter != *other);
            before = row[j + 1];
            row[j + 1] = changed.min(before + 1).min(row[j] + 1);
        }
    }
    row[right.len()]
}

/// The place of a name in a list; of a name that is not there the nearest is told.
pub fn find(names: &[String], line: usize, word: &str, what: &str) -> Result<u64, Mistake> {
    if let Some(index) = names.iter().position(|name| name == word) {
        return Ok(index as u64);
    }
    let near = names.iter().map(|name| (distance(name, word), name)).min();
    let hint = match near {
        Some((steps, name)) if steps <= 2 && steps < word.chars().count() => {
            format!("; is '{name}' meant?")
        }
        _ if names.is_empty() => format!("; the plan has no {what}"),
        _ if names.len() <= 16 => format!("; the {what}s are {}", names.join(" ")),
        _ => String::new(),
    };
    mistake(line, word, format!("no {what} has this name{hint}"))
}
