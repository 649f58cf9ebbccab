//! Lent tables, each between two guards that no call may touch.

use crate::random::Random;

const GUARD: usize = 4;

pub trait Cell: Copy + PartialEq {
    const ZERO: Self;
    fn from_bits(x: u64) -> Self;
}

macro_rules! cell {
    ($($t:ty)*) => {$(
        impl Cell for $t {
            const ZERO: Self = 0;
            fn from_bits(x: u64) -> Self {
                x as $t
            }
        }
    )*};
}

cell! { u8 u16 usize }

#[derive(Clone, PartialEq)]
pub struct Lent<T>(Vec<T>);

impl<T: Cell> Lent<T> {
    /// So many cells of rubbish, none of them zero.
    pub fn rubbish(r: &mut Random, length: usize) -> Self {
        let mut x = r.bits();
        let mut next = || {
            x = x.wrapping_mul(6_364_136_223_846_793_005).wrapping_add(1_442_695_040_888_963_407);
            T::from_bits(x >> 33 | 1)
        };
        Lent((0..length + 2 * GUARD).map(|_| next()).collect())
    }

    /// No cells.
    pub fn none() -> Self {
        Lent(vec![T::from_bits(1); 2 * GUARD])
    }

    /// A table that holds something, between guards of rubbish.
    pub fn holding(r: &mut Random, content: &[T]) -> Self {
        let mut t = Lent::rubbish(r, content.len());
        t.inside_mut().copy_from_slice(content);
        t
    }

    pub fn inside(&self) -> &[T] {
        &self.0[GUARD..self.0.len() - GUARD]
    }

    pub fn inside_mut(&mut self) -> &mut [T] {
        let end = self.0.len() - GUARD;
        &mut self.0[GUARD..end]
    }

    /// As much of the content as there is room for, and zeros behind it.
    pub fn set(&mut self, content: &[T]) {
        let all = self.inside_mut();
        let count = content.len().min(all.len());
        all[..count].copy_from_slice(&content[..count]);
        all[count..].fill(T::ZERO);
    }

    pub fn clear(&mut self) {
        self.set(&[]);
    }

    pub fn len(&self) -> usize {
        self.inside().len()
    }
}

/// How many cells question 1 asks for: the successor sets and as many sets of marked ones, the word and the walks of a witness, and for each
/// tuple its next numbers and its own.
pub const SETS: usize = 128;
pub const WORD: usize = 136;
pub const WALK: usize = 137;
pub const NEXTS: usize = 8;
pub const TUPLE: usize = 19;
/// Behind a tuple's 16 sets: its colour, and the tuple and the letter that it was first found from.
pub const COLOUR: usize = 16;
pub const FROM: usize = 17;
pub const BY: usize = 18;

/// Every table that a call may be lent; those that it does not take have no cells.
#[derive(Clone, PartialEq)]
pub struct Tables {
    pub sets: Lent<u16>,
    pub marks: Lent<u16>,
    pub word: Lent<u16>,
    pub one: Lent<u16>,
    pub other: Lent<u16>,
    pub tuples: Lent<u16>,
    pub nexts: Lent<u16>,
    pub letters: Lent<u16>,
    pub out: Lent<u8>,
    pub answer: Lent<usize>,
}

impl Tables {
    pub fn clear(&mut self) {
        let witness = [&mut self.word, &mut self.one, &mut self.other];
        for table in [&mut self.sets, &mut self.marks, &mut self.tuples, &mut self.nexts, &mut self.letters].into_iter().chain(witness) {
            table.clear();
        }
        self.out.clear();
    }

    pub fn lengths(&self) -> String {
        format!(
            "lengths: sets {}, marks {}, word {}, walks {} and {}, tuples {}, nexts {}, letters {}, out {}, answer {}",
            self.sets.len(),
            self.marks.len(),
            self.word.len(),
            self.one.len(),
            self.other.len(),
            self.tuples.len(),
            self.nexts.len(),
            self.letters.len(),
            self.out.len(),
            self.answer.len()
        )
    }
}
