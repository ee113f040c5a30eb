/// Why a call was turned back, by the number that it returns.
#[derive(Clone, Copy, Debug, PartialEq, Eq)]
pub enum Refusal {
    /// Rows or columns out of bounds.
    Size = 1,
    /// The denominator out of bounds.
    Denominator = 2,
    /// Not as many cells as rows times columns.
    CellCount = 3,
    /// A cell above 1000 times the denominator; of corrections also one below minus that.
    LargeCell = 4,
    /// A stored plan whose layout, length or head is wrong.
    Layout = 5,
    /// A stored plan that breaks another condition of opening.
    Content = 6,
    /// A lent buffer shorter than its result or record.
    ShortBuffer = 7,
    /// A draw number not below the denominator.
    DrawNumber = 8,
    /// A record that does not fit the plan.
    Record = 9,
    /// A draw number taken before.
    Taken = 10,
    /// The least common multiple of two denominators out of bounds.
    Multiple = 11,
    /// A pooled cell above 1000 times the multiple.
    PooledCell = 12,
    /// A campaign whose 1,000 rounds are done.
    Rounds = 13,
    /// An array number that the plan does not have.
    ArrayNumber = 14,
    /// Rows or columns above 4, of a table that is to be walked through.
    WalkSize = 15,
    /// An array that is no controlled rounding of the table, or has another length.
    NotRounding = 16,
}

impl Refusal {
    pub fn number(self) -> u32 {
        self as u32
    }
}

/// The number that a call without a result returns.
pub fn number_of(answer: Result<(), Refusal>) -> u32 {
    answer.map_or_else(Refusal::number, |()| 0)
}
