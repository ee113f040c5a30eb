use core::error::Error;
use core::fmt::{self, Debug, Display, Formatter};

/// Why something was refused. A refusal changes nothing; of several that apply, the first
/// is returned, in the order that the call in `lufodimi-sys` lists.
///
/// It displays as a sentence without its end, and `Debug`, which the `?` of `main`
/// prints, adds the number.
///
/// ```
/// use lufodimi::{Refusal, Table};
///
/// let refusal = Table::new(1, 1, 0, [1]).unwrap_err();
/// assert_eq!(refusal, Refusal::Denominator);
/// assert_eq!(refusal.to_string(), "the denominator is not from 1 to 65,535");
/// assert_eq!(format!("{refusal:?}"), "the denominator is not from 1 to 65,535 (refusal 2)");
/// ```
#[derive(Clone, Copy, PartialEq, Eq, Hash)]
#[non_exhaustive]
pub enum Refusal {
    /// Rows or columns not from 1 to 12.
    Size = 1,
    /// The denominator not from 1 to 65,535.
    Denominator = 2,
    /// Not as many cells as rows times columns.
    CellCount = 3,
    /// A cell above 1000 times the denominator, or one of corrections below -1000 times it.
    LargeCell = 4,
    /// A stored plan whose form, zero field, sizes, offsets or length are wrong.
    Layout = 5,
    /// A stored plan with a cell above 1000 times the denominator, with a weight of 0, with
    /// weights that do not add up to the denominator, with an array of which a cell, a row
    /// total, a column total or the grand total is not the table's rounded down or up, or
    /// with weighted arrays that do not add up to the table.
    Content = 6,
    /// A lent buffer shorter than its result or record. This crate lends buffers that
    /// are long enough, and so never returns it.
    Buffer = 7,
    /// A draw number not below the denominator.
    Number = 8,
    /// A record that does not fit the plan.
    Record = 9,
    /// A draw number that is taken in this round.
    Taken = 10,
    /// The least common multiple of the two denominators above 65,535.
    Multiple = 11,
    /// A pooled cell above 1000 times the multiple.
    PooledCell = 12,
    /// A campaign whose [`ROUNDS`](crate::Campaign::ROUNDS) are done.
    Rounds = 13,
    /// An array number that the plan does not have: 0, or above the number of arrays.
    Array = 14,
    /// Rows or columns above 4, of a table that is to be walked through.
    WalkSize = 15,
    /// An array that is no controlled rounding of the table, or has another length.
    NotRounding = 16,
}

/// The refusals in the order of their numbers.
const REFUSALS: [Refusal; 16] = [
    Refusal::Size,
    Refusal::Denominator,
    Refusal::CellCount,
    Refusal::LargeCell,
    Refusal::Layout,
    Refusal::Content,
    Refusal::Buffer,
    Refusal::Number,
    Refusal::Record,
    Refusal::Taken,
    Refusal::Multiple,
    Refusal::PooledCell,
    Refusal::Rounds,
    Refusal::Array,
    Refusal::WalkSize,
    Refusal::NotRounding,
];

impl Refusal {
    /// The number by which the library and its specification name the refusal.
    ///
    /// ```
    /// assert_eq!(lufodimi::Refusal::Taken.number(), 10);
    /// ```
    pub fn number(self) -> u32 {
        self as u32
    }

    /// The refusal with this number, which is one that the library returned.
    pub(crate) fn of(number: u32) -> Refusal {
        REFUSALS[number as usize - 1]
    }
}

/// What a call without a length returned: 0, or the number of the refusal.
pub(crate) fn accepted(answer: u32) -> Result<(), Refusal> {
    match answer {
        0 => Ok(()),
        number => Err(Refusal::of(number)),
    }
}

impl Display for Refusal {
    fn fmt(&self, formatter: &mut Formatter) -> fmt::Result {
        formatter.write_str(match self {
            Refusal::Size => "rows or columns are not from 1 to 12",
            Refusal::Denominator => "the denominator is not from 1 to 65,535",
            Refusal::CellCount => "the cells are not as many as rows times columns",
            Refusal::LargeCell => {
                "a cell is not from 0 to 1000 times the denominator, or a correction not from -1000 to 1000 times it"
            }
            Refusal::Layout => "the bytes are not laid out as a stored plan",
            Refusal::Content => "the stored plan does not meet the conditions of opening",
            Refusal::Buffer => "a buffer is shorter than its result or record",
            Refusal::Number => "the draw number is not below the denominator",
            Refusal::Record => "the record does not fit the plan",
            Refusal::Taken => "the number is taken",
            Refusal::Multiple => {
                "the least common multiple of the two denominators is above 65,535"
            }
            Refusal::PooledCell => "a pooled cell is above 1000 times the multiple",
            Refusal::Rounds => "the 1,000 rounds of the campaign are done",
            Refusal::Array => "the plan has no array of that number",
            Refusal::WalkSize => {
                "rows or columns are above 4, the most of a table that is walked through"
            }
            Refusal::NotRounding => {
                "the array is no controlled rounding of the table, or has another length"
            }
        })
    }
}

impl Debug for Refusal {
    fn fmt(&self, formatter: &mut Formatter) -> fmt::Result {
        write!(formatter, "{self} (refusal {})", self.number())
    }
}

impl Error for Refusal {}

#[cfg(test)]
mod tests {
    use super::*;
    use alloc::format;
    use alloc::string::ToString;

    #[test]
    fn every_number_has_its_refusal_and_a_sentence() {
        for number in 1..=16 {
            let refusal = Refusal::of(number);
            assert_eq!(refusal.number(), number);
            let sentence = refusal.to_string();
            assert!(sentence.starts_with(char::is_lowercase), "{sentence}");
            assert!(!sentence.ends_with('.'), "{sentence}");
            let shown = format!("{sentence} (refusal {number})");
            assert_eq!(format!("{refusal:?}"), shown);
        }
    }

    #[test]
    fn only_0_is_accepted() {
        assert_eq!(accepted(0), Ok(()));
        assert_eq!(accepted(7), Err(Refusal::Buffer));
    }
}
