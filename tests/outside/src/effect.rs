//! What it changes for a sheet that dead ends are harmless: the tests count how often they come upon it.

use crate::sheet::Sheet;
use crate::walks;

#[derive(Clone, Copy, PartialEq, Eq, Debug)]
pub enum Effect {
    /// The same answer, with a word as long.
    Nothing,
    /// Walks come together in dead ends only.
    Accepted,
    /// Walks come together in a dead end on a shorter word than in a state that goes on.
    LongerWord,
}

impl Effect {
    /// On a sheet whose shortest meeting word has this length.
    pub fn on(s: &Sheet, meeting: Option<usize>) -> Self {
        if !walks::endless(s).contains(&false) {
            return Effect::Nothing;
        }
        match (walks::shortest_meeting_anywhere(s), meeting) {
            (Some(_), None) => Effect::Accepted,
            (Some(before), Some(now)) if before < now => Effect::LongerWord,
            _ => Effect::Nothing,
        }
    }

    pub fn of(s: &Sheet) -> Self {
        Effect::on(s, walks::shortest_meeting(s))
    }

    pub fn name(self) -> &'static str {
        match self {
            Effect::Nothing => "same answer",
            Effect::Accepted => "harmless",
            Effect::LongerWord => "longer word",
        }
    }
}
