//! Endless words, most of which never repeat, with what is known of them exactly. A word is cut into blocks that grow without end; what a block
//! does, in a sheet or in a tracker's table, is one of finitely many things, and these come again and again from some block on. So nothing is
//! sampled, and on the sheet's side there is no tuple.

pub mod check;
pub mod reading;
pub mod run;
pub mod shapes;

/// What a stretch of letters does: of two on end, what the one and then the other does.
pub trait Stretch: Clone + PartialEq {
    fn then(&self, next: &Self) -> Self;
}

/// A lead-in, and behind it blocks without end. A block is a row of pieces; from block to block each piece becomes a row of the pieces that there were.
pub struct Word {
    pub lead: Vec<usize>,
    /// The letters of the pieces of the first block.
    pub pieces: Vec<Vec<usize>>,
    /// The pieces that each piece is made of for the next block.
    pub next: Vec<Vec<usize>>,
    /// The pieces that a block is made of.
    pub block: Vec<usize>,
}

/// What each block does, up to the last that is unlike those before it; behind that one the blocks from number `again` on come again, and so on.
pub struct Blocks<T> {
    pub each: Vec<T>,
    pub again: usize,
}

/// The most blocks before they come again. In a table there may be very many; such a word is left out.
const MOST: usize = 400;

fn in_a_row<T: Stretch>(all: &[T], which: &[usize]) -> T {
    which[1..].iter().fold(all[which[0]].clone(), |x, i| x.then(&all[*i]))
}

impl Word {
    /// The word of a plan: every block is its cycle.
    pub fn repeating(lead: &[usize], cycle: &[usize]) -> Self {
        Word { lead: lead.to_vec(), pieces: vec![cycle.to_vec()], next: vec![vec![0]], block: vec![0] }
    }

    /// The blocks, by what the single letters do. Pieces that do what an earlier block's did go on as those did.
    pub fn blocks<T: Stretch>(&self, letters: &[T]) -> Option<Blocks<T>> {
        let mut pieces: Vec<T> = self.pieces.iter().map(|x| in_a_row(letters, x)).collect();
        let mut before: Vec<Vec<T>> = Vec::new();
        while before.len() < MOST {
            if let Some(again) = before.iter().position(|x| *x == pieces) {
                return Some(Blocks { each: before.iter().map(|x| in_a_row(x, &self.block)).collect(), again });
            }
            let next = self.next.iter().map(|row| in_a_row(&pieces, row)).collect();
            before.push(std::mem::replace(&mut pieces, next));
        }
        None
    }

    /// How many letters there are up to the beginning of each block, for so many blocks and the one behind them.
    pub fn beginnings(&self, blocks: usize) -> Vec<usize> {
        let mut lengths: Vec<usize> = self.pieces.iter().map(|x| x.len()).collect();
        let sum = |lengths: &[usize], row: &[usize]| row.iter().fold(0usize, |x, i| x.saturating_add(lengths[*i]));
        let mut out = vec![self.lead.len()];
        for i in 0..blocks {
            out.push(out[i].saturating_add(sum(&lengths, &self.block)));
            lengths = self.next.iter().map(|row| sum(&lengths, row)).collect();
        }
        out
    }
}

impl<T> Blocks<T> {
    /// The number of the block behind one.
    pub fn after(&self, block: usize) -> usize {
        if block + 1 == self.each.len() {
            self.again
        } else {
            block + 1
        }
    }
}
