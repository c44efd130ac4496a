//! The names of a plan's frames, sensors, cells and actuators. A plan text has none: they come from
//! a named plan that stands beside it, or are made up.

use super::text::Row;

#[derive(Clone, Debug, Default, PartialEq, Eq)]
pub struct Names {
    /// The comment in the first line of the named plan.
    pub title: Option<String>,
    pub frames: Vec<String>,
    pub sensors: Vec<String>,
    pub cells: Vec<String>,
    pub actuators: Vec<String>,
}

impl Names {
    /// `c0`, `c1` and so on; a frame's is its number.
    pub fn made_up(header: &Row) -> Names {
        let list = |letter: &str, count: u64| (0..count).map(|i| format!("{letter}{i}")).collect();
        let [_, _, frames, cells, sensors, actuators] = *header;
        Names {
            title: None,
            frames: list("", frames),
            sensors: list("s", sensors),
            cells: list("c", cells),
            actuators: list("a", actuators),
        }
    }

    /// Whether the frames have names of their own.
    pub fn frames_named(&self) -> bool {
        self.frames.iter().enumerate().any(|(number, name)| *name != number.to_string())
    }
}
