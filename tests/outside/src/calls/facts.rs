//! What the questions say of a sheet, and what follows from it: found once for all calls on it.

use super::numbers::Numbers;
use crate::effect::Effect;
use crate::expected::ROOM;
use crate::sheet::{read_sheet, No, Sheet};
use crate::tuples::{self, Tracker};
use crate::walks;

pub struct Facts {
    /// Questions 2 to 9, 15 and 16 on a file; 4, 7 and 8 on numbers.
    pub sheet: Result<Sheet, No>,
    /// The length of a shortest meeting word.
    pub meeting: Option<usize>,
    /// What harmless dead ends change.
    pub effect: Effect,
    /// The tracker, where there are at most 1,024 tuples.
    pub tracker: Option<Tracker>,
    pub listing: String,
}

/// A refusal; with 10 the sheet and the word's length.
pub enum Refusal<'a> {
    Plain(No),
    Meeting(&'a Sheet, usize),
}

impl Facts {
    /// Where no tracker is asked for.
    pub fn of_walks(sheet: Result<Sheet, No>) -> Self {
        let meeting = sheet.as_ref().ok().and_then(walks::shortest_meeting);
        let effect = sheet.as_ref().map_or(Effect::Nothing, |s| Effect::on(s, meeting));
        Facts { sheet, meeting, effect, tracker: None, listing: String::new() }
    }

    pub fn new(sheet: Result<Sheet, No>) -> Self {
        let facts = Facts::of_walks(sheet);
        let tracker = facts.accepted().ok().and_then(|s| tuples::build(s, ROOM));
        let listing = tracker.as_ref().map_or(String::new(), |t| tuples::listing(facts.sheet.as_ref().unwrap(), t));
        Facts { tracker, listing, ..facts }
    }

    pub fn of_file(file: &[u8]) -> Self {
        Facts::new(read_sheet(file))
    }

    pub fn of_numbers(a: &Numbers) -> Self {
        Facts::new(a.sheet())
    }

    /// The questions up to 10.
    pub fn accepted(&self) -> Result<&Sheet, Refusal<'_>> {
        let s = self.sheet.as_ref().map_err(|no| Refusal::Plain(*no))?;
        match self.meeting {
            None => Ok(s),
            Some(length) => Err(Refusal::Meeting(s, length)),
        }
    }

    /// Question 11, where a room is given.
    pub fn tracked(&self, room: usize) -> Result<&Tracker, Refusal<'_>> {
        self.tracker.as_ref().filter(|t| t.tuples.len() <= room).ok_or(Refusal::Plain((11, 0)))
    }
}
