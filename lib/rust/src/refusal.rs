//! The numbers for no.

use std::error::Error;
use std::fmt;

/// A number for no, given exactly when its text says.
#[derive(Clone, Copy, Debug, PartialEq, Eq, Hash)]
#[repr(u8)]
pub enum Refusal {
    /// 1
    Length = 1,
    /// 2
    Limits,
    /// 3
    Table,
    /// 4
    Place,
    /// 5
    Fraction,
    /// 6
    Size,
    /// 7
    Mark,
    /// 8
    Counts,
    /// 9
    Start,
    /// 10
    End,
    /// 11
    Cell,
    /// 12
    Twice,
    /// 13
    Room,
    /// 14
    WriterRoom,
    /// 15
    Stack,
    /// 255: an answer that documents 01 and 02 don't have. The contracts exclude it; were it to come, it would not be a
    /// panic.
    Unknown = 255,
}

impl Refusal {
    /// The refusals of documents 01 and 02, in the order of their numbers, from 1.
    pub const ALL: [Refusal; 15] = [
        Refusal::Length,
        Refusal::Limits,
        Refusal::Table,
        Refusal::Place,
        Refusal::Fraction,
        Refusal::Size,
        Refusal::Mark,
        Refusal::Counts,
        Refusal::Start,
        Refusal::End,
        Refusal::Cell,
        Refusal::Twice,
        Refusal::Room,
        Refusal::WriterRoom,
        Refusal::Stack,
    ];

    /// Its number.
    pub fn number(self) -> u8 {
        self as u8
    }

    /// The refusal of a number.
    pub(crate) fn of(number: u8) -> Refusal {
        let known = Refusal::ALL.into_iter().find(|refusal| refusal.number() == number);
        known.unwrap_or(Refusal::Unknown)
    }

    /// The words of documents 01 and 02.
    fn words(self) -> &'static str {
        match self {
            Refusal::Length => "row length 0 or above 10, or the two lists differ in length",
            Refusal::Limits => "low above high, or high above 511",
            Refusal::Table => "a table has fewer than 5,632 entries",
            Refusal::Place => "the place asked for isn't in the row, or the value is above 31",
            Refusal::Fraction => "a fraction's total is 0",
            Refusal::Size => "file below 6 or above 1,062 bytes",
            Refusal::Mark => "mark wrong",
            Refusal::Counts => "cells or rows outside the sizes",
            Refusal::Start => "start isn't four times the cells, or lies past the trailer",
            Refusal::End => "a row runs into the trailer, or bytes are left over",
            Refusal::Cell => "a row names a cell that the board hasn't",
            Refusal::Twice => "a row names a cell twice",
            Refusal::Room => "domain room below 64 entries",
            Refusal::WriterRoom => "writer's room shorter than the file",
            Refusal::Stack => "stack room below 4,096 entries",
            Refusal::Unknown => "an answer that documents 01 and 02 don't have",
        }
    }
}

impl fmt::Display for Refusal {
    fn fmt(&self, f: &mut fmt::Formatter<'_>) -> fmt::Result {
        write!(f, "refused, {}: {}", self.number(), self.words())
    }
}

impl Error for Refusal {}

#[cfg(test)]
mod tests {
    use super::Refusal;

    #[test]
    fn numbers_from_1_to_15() {
        for number in 0..=u8::MAX {
            let refusal = Refusal::of(number);
            match number {
                1..=15 => assert_eq!(refusal.number(), number),
                _ => assert_eq!(refusal, Refusal::Unknown),
            }
        }
    }
}
