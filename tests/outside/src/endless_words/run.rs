//! The tracker's side: the run through a table from tuple 0, by next numbers alone, and the least colour that it enters without end.

use super::{Stretch, Word};
use std::collections::HashMap;
use std::ops::Range;

/// What a display goes by: the next numbers of each tuple, letter by letter, and the colour that it is entered with.
pub struct Table {
    pub next: Vec<Vec<usize>>,
    pub colour: Vec<usize>,
}

/// From each tuple, the tuple behind a stretch of letters and the least colour entered on it.
#[derive(Clone, PartialEq)]
pub struct Steps(Vec<(u16, u16)>);

impl Stretch for Steps {
    fn then(&self, next: &Self) -> Self {
        let on = |(middle, one): &(u16, u16)| {
            let (to, other) = next.0[*middle as usize];
            (to, other.min(*one))
        };
        Steps(self.0.iter().map(on).collect())
    }
}

impl Table {
    /// The steps on the single letters.
    pub fn steps(&self) -> Vec<Steps> {
        let on = |l: usize| self.next.iter().map(|row| (row[l] as u16, self.colour[row[l]] as u16)).collect();
        (0..self.next[0].len()).map(|l| Steps(on(l))).collect()
    }

    /// The least colour that is entered without end on the word, with the numbers of the blocks of one round: behind the last of them, the run
    /// is where it was before the first.
    pub fn least(&self, letters: &[Steps], word: &Word) -> Option<(usize, Range<usize>)> {
        let blocks = word.blocks(letters)?;
        let mut at = word.lead.iter().fold(0, |t, l| self.next[t][*l]);
        let mut block = 0;
        let mut met = HashMap::new();
        let mut least: Vec<u16> = Vec::new();
        loop {
            if let Some(first) = met.insert((block, at), least.len()) {
                let low = *least[first..].iter().min().unwrap();
                return Some((low as usize, first..least.len()));
            }
            let (to, low) = blocks.each[block].0[at];
            least.push(low);
            (at, block) = (to as usize, blocks.after(block));
        }
    }

    /// The colours that are entered on these letters, step by step.
    pub fn colours(&self, letters: &[usize]) -> Vec<usize> {
        let mut at = 0;
        let mut step = |l: &usize| {
            at = self.next[at][*l];
            self.colour[at]
        };
        letters.iter().map(&mut step).collect()
    }
}
