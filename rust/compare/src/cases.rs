use std::collections::BTreeMap;
use std::fmt::{self, Debug, Display};
use tables::literal::numbered;
use tables::Generator;

/// A kind of cases, each of them made from a seed.
pub struct Kind {
    pub name: &'static str,
    /// How many cases the default mode compares.
    pub cases: u64,
    pub compare: fn(&mut Generator, &mut Calls) -> Result<(), Difference>,
}

/// A single case with a name of its own.
pub struct Named {
    pub name: &'static str,
    pub compare: fn(&mut Calls) -> Result<(), Difference>,
}

/// A call with everything that is lent to it.
pub trait Call: Clone + Debug + PartialEq {
    /// Makes the call to the reference and returns its answer.
    fn reference(&mut self) -> u32;
    /// Makes the call to the library and returns its answer.
    fn library(&mut self) -> u32;
}

/// A call that the library answered unlike the reference.
pub struct Difference {
    pub text: String,
}

impl Difference {
    /// The same difference with the case that it was found in.
    pub fn in_case(self, name: &str, seed: Option<u64>) -> Difference {
        let seed = seed.map_or(String::new(), |seed| format!(" {seed:#018x}"));
        let text = format!("difference in {name}{seed}\n{}", self.text);
        Difference { text }
    }

    /// The same difference with the row of the table that it was found in.
    fn in_row(self, number: usize, row: &impl Debug) -> Difference {
        let text = format!("row {number}: {row:?}\n{}", self.text);
        Difference { text }
    }
}

/// The seed of a case, from the name of its kind and its number.
pub fn case_seed(name: &str, number: u64) -> u64 {
    let mixed = |seed: u64, part: u64| Generator::new(seed ^ part).bits();
    name.bytes().map(u64::from).chain([number]).fold(0, mixed)
}

/// The calls compared so far, by what they returned.
#[derive(Default)]
pub struct Calls {
    by_answer: BTreeMap<u32, u64>,
}

/// A call that reference and library answered alike, as both left it.
pub struct Compared<C> {
    pub answer: u32,
    pub after: C,
}

/// The least length of a stored plan.
const LEAST_LENGTH: u32 = 30;

impl<C> Compared<C> {
    /// The refusal, or 0 for a call that was accepted, with or without a length.
    pub fn refusal(&self) -> u32 {
        if self.answer < LEAST_LENGTH {
            self.answer
        } else {
            0
        }
    }
}

impl Calls {
    /// Makes a call to both. The answer, what is lent and what stands after it must
    /// be the same.
    pub fn compare<C: Call>(&mut self, call: &C) -> Result<Compared<C>, Difference> {
        let mut expected = call.clone();
        let answer = expected.reference();
        let mut after = call.clone();
        let library_answer = after.library();
        if (answer, &expected) != (library_answer, &after) {
            let text = format!(
                "before: {call:?}\n\
                 reference returns {answer} and leaves: {expected:?}\n\
                 library returns {library_answer} and leaves: {after:?}\n"
            );
            return Err(Difference { text });
        }
        let compared = Compared { answer, after };
        *self.by_answer.entry(compared.refusal()).or_default() += 1;
        Ok(compared)
    }

    /// The same for a call whose answer the papers state.
    pub fn compare_stated<C: Call>(&mut self, call: &C, stated: u32) -> Result<C, Difference> {
        let Compared { answer, after } = self.compare(call)?;
        require(answer == stated, || {
            format!("before: {call:?}\nboth return {answer}, the papers {stated}\n")
        })?;
        Ok(after)
    }

    /// The same for a call of which the papers also state what it leaves.
    pub fn compare_left<C: Call>(
        &mut self,
        call: &C,
        stated: u32,
        left: &C,
    ) -> Result<(), Difference> {
        let after = self.compare_stated(call, stated)?;
        require(after == *left, || {
            format!("before: {call:?}\nboth leave: {after:?}\nthe papers: {left:?}\n")
        })
    }
}

/// Goes over the rows of a table of literal cases. A difference names its row.
pub fn over_rows<Row: Debug>(
    rows: &[Row],
    mut compare: impl FnMut(&Row) -> Result<(), Difference>,
) -> Result<(), Difference> {
    for (number, row) in numbered(rows) {
        compare(row).map_err(|difference| difference.in_row(number, row))?;
    }
    Ok(())
}

/// A difference from what the papers state, unless the condition holds.
pub fn require(holds: bool, describe: impl FnOnce() -> String) -> Result<(), Difference> {
    if holds {
        return Ok(());
    }
    Err(Difference { text: describe() })
}

impl Display for Calls {
    fn fmt(&self, formatter: &mut fmt::Formatter) -> fmt::Result {
        let total: u64 = self.by_answer.values().sum();
        let part = |(answer, count): (&u32, &u64)| match answer {
            0 => format!("accepted: {count}"),
            _ => format!("refused by {answer}: {count}"),
        };
        let parts: Vec<String> = self.by_answer.iter().map(part).collect();
        write!(formatter, "calls: {total} ({})", parts.join(", "))
    }
}
