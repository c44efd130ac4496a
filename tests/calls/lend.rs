//! Buffers lent to the library: guards before and after them, and what has to stand in them when
//! the call is over.

use std::fmt::Debug;

/// Elements before and after each slice.
pub const GUARD: usize = 16;

pub trait Element: Copy + PartialEq + Debug {
    const GUARD: Self;
}

impl Element for u8 {
    const GUARD: u8 = 0xA5;
}

impl Element for u64 {
    const GUARD: u64 = 0xA55A_C33C_0FF0_9669;
}

impl Element for usize {
    const GUARD: usize = 0xA55A_C33C_0FF0_9669;
}

pub struct Lent<T> {
    name: &'static str,
    /// The slice at `start`, guards around it: what the library works on.
    room: Vec<T>,
    start: usize,
    before: Vec<T>,
    /// What the reference works on.
    pub after: Vec<T>,
}

impl<T: Element> Lent<T> {
    /// The slice begins at `start`, so that bytes and numbers stand at any address that is allowed
    /// for them; `past` elements are after it.
    pub fn new(name: &'static str, values: &[T], start: usize, past: usize) -> Lent<T> {
        let mut room = vec![T::GUARD; start + values.len() + past];
        room[start..start + values.len()].copy_from_slice(values);
        Lent { name, room, start, before: values.to_vec(), after: values.to_vec() }
    }

    /// The address to hand over; a slice of no elements may be at none.
    pub fn at(&mut self) -> *mut T {
        if self.len() == 0 && self.start % 2 == 1 {
            return std::ptr::null_mut();
        }
        // SAFETY: the slice starts inside the room.
        unsafe { self.room.as_mut_ptr().add(self.start) }
    }

    pub fn len(&self) -> usize {
        self.before.len()
    }
}

/// What all parameters have, whatever is in them.
pub trait Slice {
    /// What differs from what the reference left, if anything does.
    fn difference(&self) -> Option<String>;

    /// The slice as it was lent.
    fn lent(&self) -> String;
}

impl<T: Element> Slice for Lent<T> {
    fn difference(&self) -> Option<String> {
        let end = self.start + self.len();
        let guards = self.room[..self.start].iter().chain(&self.room[end..]);
        if guards.into_iter().any(|value| *value != T::GUARD) {
            return Some(format!("{}: something was written beside the slice", self.name));
        }
        let left = &self.room[self.start..end];
        if left == self.after {
            return None;
        }
        let at = (0..left.len()).find(|&at| left[at] != self.after[at])?;
        let [was, expected, got] = [self.before[at], self.after[at], left[at]];
        Some(format!("{}[{at}]: was {was:?}, expected {expected:?}, got {got:?}", self.name))
    }

    fn lent(&self) -> String {
        format!("{} ({}) = {:?}", self.name, self.len(), self.before)
    }
}

/// A number that goes by value, for the report.
pub struct Number(pub &'static str, pub u64);

impl Slice for Number {
    fn difference(&self) -> Option<String> {
        None
    }

    fn lent(&self) -> String {
        format!("{} = {}", self.0, self.1)
    }
}
