//! The two editions of a sheet file: in one states must recur, in the other transitions are marked.

#[derive(Clone, Copy, PartialEq, Eq, PartialOrd, Ord, Debug)]
pub enum Edition {
    States,
    Marks,
}

pub const EDITIONS: [Edition; 2] = [Edition::States, Edition::Marks];

impl Edition {
    /// What its files open with.
    pub fn word(self) -> &'static str {
        match self {
            Edition::States => "SHEET",
            Edition::Marks => "SHT-2",
        }
    }

    /// The edition whose word a file opens with.
    pub fn opening(file: &[u8]) -> Option<Edition> {
        EDITIONS.into_iter().find(|e| file.starts_with(e.word().as_bytes()))
    }

    /// As the calls number them.
    pub fn number(self) -> usize {
        match self {
            Edition::States => 1,
            Edition::Marks => 2,
        }
    }

    /// As the calls take a number: each but 2 stands for the first edition.
    pub fn of_number(number: usize) -> Edition {
        if number == 2 {
            Edition::Marks
        } else {
            Edition::States
        }
    }
}
