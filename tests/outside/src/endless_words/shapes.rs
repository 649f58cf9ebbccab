//! How two words y and z take turns for ever: each shape as blocks made of pieces, and once more by the formula that tells it. Written with
//! two letters in the place of y and z no shape repeats from anywhere on; so neither does it where y z and z y differ, since then two rows of
//! y and z that go apart spell words that go apart too.

use super::Word;

#[derive(Clone, Copy, PartialEq, Debug)]
pub enum Shape {
    /// y, z n times.
    Rising,
    /// y, z 2n times.
    Doubled,
    /// y, z n² times.
    Squares,
    /// y, z 2ⁿ times.
    Powers,
    /// y n times, z n times.
    Both,
    /// y, z n times, y y z, y z n times.
    TwoKinds,
    /// The word of Thue and Morse: each y becomes y z, each z becomes z y.
    ThueMorse,
    /// The word of Fibonacci: each y becomes y z, each z becomes y.
    Fibonacci,
}

use Shape::*;

pub const ALL: [Shape; 8] = [Rising, Doubled, Squares, Powers, Both, TwoKinds, ThueMorse, Fibonacci];

impl Shape {
    /// What stands before the first block, the pieces of the first block, what each piece is made of for the next one, and what a block is made of.
    #[rustfmt::skip]
    fn parts(self) -> (&'static str, &'static [&'static str], &'static [&'static [usize]], &'static [usize]) {
        match self {
            Rising => ("", &["y", "z", "z"], &[&[0], &[1], &[2, 1]], &[0, 2]),
            Doubled => ("", &["y", "z", "zz"], &[&[0], &[1], &[2, 1, 1]], &[0, 2]),
            // The fourth piece is z 2n+1 times.
            Squares => ("", &["y", "z", "z", "zzz"], &[&[0], &[1], &[2, 3], &[3, 1, 1]], &[0, 2]),
            Powers => ("", &["y", "zz"], &[&[0], &[1, 1]], &[0, 1]),
            Both => ("", &["y", "z", "y", "z"], &[&[0], &[1], &[2, 0], &[3, 1]], &[2, 3]),
            TwoKinds => ("", &["y", "z", "z", "yyz", "yz", "yz"], &[&[0], &[1], &[2, 1], &[3], &[4], &[5, 4]], &[0, 2, 3, 5]),
            // The first piece is the beginning of the word, and the second is what makes it the next, longer one.
            ThueMorse => ("y", &["y", "z"], &[&[0, 1], &[1, 0]], &[1]),
            Fibonacci => ("y", &["y", "z"], &[&[0, 1], &[0]], &[1]),
        }
    }

    /// The first turns by the formula: is it z?
    pub fn turns(self, count: usize) -> Vec<bool> {
        let times = |what: &[bool], n: usize| what.repeat(n);
        let (y, z) = (&[false][..], &[true][..]);
        let block = |n: usize| match self {
            Rising => [y, &times(z, n)].concat(),
            Doubled => [y, &times(z, 2 * n)].concat(),
            Squares => [y, &times(z, n * n)].concat(),
            Powers => [y, &times(z, 1 << n)].concat(),
            Both => [times(y, n), times(z, n)].concat(),
            TwoKinds => [y, &times(z, n), y, y, z, &times(&[false, true], n)].concat(),
            ThueMorse | Fibonacci => unreachable!("no blocks in their formula"),
        };
        match self {
            ThueMorse => (0..count).map(|i| i.count_ones() % 2 == 1).collect(),
            Fibonacci => {
                let numbers = fibonacci_numbers(count);
                (0..count).map(|i| has_a_one(&numbers, i)).collect()
            }
            _ => (1..).flat_map(block).take(count).collect(),
        }
    }
}

/// Is 1 among the Fibonacci numbers that a number is the sum of, the largest taken first?
fn has_a_one(fibonacci: &[usize], number: usize) -> bool {
    fibonacci[1..].iter().rev().fold(number, |rest, f| if rest >= *f { rest - f } else { rest }) == 1
}

/// 1, 2, 3, 5 and so on, up to the first that is not below a number.
fn fibonacci_numbers(number: usize) -> Vec<usize> {
    let mut out = vec![1, 2];
    while out[out.len() - 1] < number {
        out.push(out[out.len() - 1] + out[out.len() - 2]);
    }
    out
}

/// A shape with words for y and z, and a word x before it.
#[derive(Clone, Debug)]
pub struct Spelled {
    pub shape: Shape,
    pub x: Vec<usize>,
    pub y: Vec<usize>,
    pub z: Vec<usize>,
}

impl Spelled {
    /// Otherwise both are powers of one word, and so is all behind x.
    pub fn never_repeats(&self) -> bool {
        [&self.y[..], &self.z].concat() != [&self.z[..], &self.y].concat()
    }

    pub fn word(&self) -> Word {
        let spell = |row: &str| row.bytes().flat_map(|c| if c == b'y' { &self.y } else { &self.z }).copied().collect::<Vec<usize>>();
        let (lead, pieces, next, block) = self.shape.parts();
        Word {
            lead: [&self.x[..], &spell(lead)].concat(),
            pieces: pieces.iter().map(|row| spell(row)).collect(),
            next: next.iter().map(|row| row.to_vec()).collect(),
            block: block.to_vec(),
        }
    }

    /// The first letters, by the formula.
    pub fn letters(&self, count: usize) -> Vec<usize> {
        let turns = self.shape.turns(count);
        let behind = turns.iter().flat_map(|z| if *z { &self.z } else { &self.y });
        self.x.iter().chain(behind).take(count).copied().collect()
    }
}
