//! The public calls, and what each of them takes.

#[derive(Clone, Copy, PartialEq, Eq, Debug)]
pub enum Call {
    Check,
    ReadSheet,
    Write,
    WriteNumbers,
    Name,
    NameNumber,
    Find,
    Successors,
    Build,
    BuildNumbers,
    List,
    ListNumbers,
    Verdict,
    Track,
    VerdictProgram,
    Rewrite,
    Way,
}

use super::kinds::*;
use crate::edition::Edition;
use Call::*;

pub const ALL: [Call; 17] = [
    Check, ReadSheet, Write, WriteNumbers, Name, NameNumber, Find, Successors, Build, BuildNumbers, List, ListNumbers, Verdict, Track,
    VerdictProgram, Rewrite, Way,
];

impl Call {
    pub fn name(self) -> &'static str {
        match self {
            Check => "call check",
            ReadSheet => "call read_sheet",
            Write => "call write",
            WriteNumbers => "call write_numbers",
            Name => "call name",
            NameNumber => "call name_number",
            Find => "call find",
            Successors => "call successors",
            Build => "call build",
            BuildNumbers => "call build_numbers",
            List => "call list",
            ListNumbers => "call list_numbers",
            Verdict => "call verdict",
            Track => "call track_output",
            VerdictProgram => "call verdict_output",
            Rewrite => "call rewrite_output",
            Way => "call way",
        }
    }

    /// A sheet as numbers, whose tables are only read.
    pub fn takes_numbers(self) -> bool {
        matches!(self, Check | WriteNumbers | BuildNumbers | ListNumbers)
    }

    /// Tables for the successor sets and for the marked ones among them.
    pub fn lends_sets(self) -> bool {
        matches!(self, ReadSheet | Build | List | Verdict | Way)
    }

    /// Tables for a word and two walks.
    pub fn lends_witness(self) -> bool {
        !matches!(self, Name | NameNumber | Successors) && self.program().is_none()
    }

    /// A room, and tables for tuples and next numbers.
    pub fn lends_room(self) -> bool {
        matches!(self, Build | BuildNumbers | List | ListNumbers | Verdict | Way)
    }

    /// A tuple's number, and a table for the letters to it.
    pub fn lends_letters(self) -> bool {
        self == Way
    }

    /// A buffer for a text whose length is asked last.
    pub fn writes(self) -> bool {
        matches!(self, Write | WriteNumbers | List | ListNumbers)
    }

    /// Of a whole program, the least buffer that it takes.
    pub fn program(self) -> Option<usize> {
        match self {
            Track => Some(149_525),
            VerdictProgram => Some(12),
            Rewrite => Some(29_056),
            _ => None,
        }
    }

    /// The refusals that the call can give on a sheet of an edition, with 0 for none.
    pub fn refusals(self, edition: Edition) -> Vec<u32> {
        let mut out = self.numbers();
        if self.writes() || self.program().is_some() {
            out.push(LATE);
        }
        if out.contains(&10) {
            out.push(HARMLESS);
        }
        if self.lends_witness() || self == Rewrite {
            out.push(LONGER);
        }
        if self.lends_letters() {
            out.extend([FEW_LETTERS, NO_TUPLE, EMPTY_WORD, SOME_WORD]);
        }
        if self.lends_sets() || self.takes_numbers() {
            out.push(FEW_MARKS);
        }
        if self.takes_numbers() {
            out.push(BEHIND);
            out.extend(if edition == Edition::Marks { &[RECURRING, NO_TRANSITION][..] } else { &[MARKED] });
        }
        if self == WriteNumbers {
            out.push(OTHER_NAMES);
        }
        out
    }

    fn numbers(self) -> Vec<u32> {
        match self {
            Check => vec![0, 1, 4, 7, 8, 10],
            ReadSheet | Write => (0..=10).chain([15, 16]).collect(),
            WriteNumbers => (0..=10).chain([15, 16, BY_FILE]).collect(),
            Name | Successors => vec![0],
            NameNumber => vec![0, 2, 3, 4, 5, 6, 7, 8, 9, 14, 15, 16],
            Find => (0..=10).chain([14, 15, 16]).collect(),
            Build | List | Way => (0..=11).chain([15, 16]).collect(),
            BuildNumbers | ListNumbers => vec![0, 1, 4, 7, 8, 10, 11],
            Verdict => (0..=16).collect(),
            Track => [0].into_iter().chain(2..=11).chain([15, 16]).collect(),
            VerdictProgram => [0].into_iter().chain(2..=16).collect(),
            Rewrite => [0].into_iter().chain(2..=10).chain([15, 16]).collect(),
        }
    }
}
