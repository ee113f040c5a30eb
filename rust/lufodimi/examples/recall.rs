//! A week's recall list pooled with the standing table.
//!
//! The standing table says how many cartons to open, three shelf zones by four kinds, over
//! 10. The list of recalled kinds says how many more, over 4. The example shows what is
//! expected of the cells that the list changes, and what plan the pooled table has.

use lufodimi::{Plan, PoolError, Refusal, Table};

const ZONES: [&str; 3] = ["front", "middle", "cold"];
const KINDS: [&str; 4] = ["tablets", "ampoules", "insulin", "infusions"];

fn main() -> Result<(), PoolError> {
    print!("{}", described(&standing()?, &week()?)?);
    Ok(())
}

/// The standing table: 45 is an expected count of 4.5 cartons.
fn standing() -> Result<Table, Refusal> {
    table(10, [[45, 23, 0, 12], [31, 26, 4, 19], [0, 14, 52, 14]])
}

/// The week's list: 3 is an expected count of 0.75 of a carton.
fn week() -> Result<Table, Refusal> {
    table(4, [[0, 0, 0, 0], [0, 0, 0, 3], [0, 2, 0, 0]])
}

/// A table of all zones and kinds, a zone a row.
fn table(denominator: u32, zones: [[u32; 4]; 3]) -> Result<Table, Refusal> {
    Table::new(3, 4, denominator, zones.concat())
}

/// What the list changes, and how the pooled table is planned.
fn described(standing: &Table, list: &Table) -> Result<String, PoolError> {
    let pooled = standing.pool(list)?;
    let mut text = String::new();
    for cell in changed(list) {
        let of = |table| expected(table, cell);
        text += &format!(
            "{}, {}: {:.2} standing, {:.2} on the list, {:.2} pooled\n",
            ZONES[cell / KINDS.len()],
            KINDS[cell % KINDS.len()],
            of(standing),
            of(list),
            of(&pooled)
        );
    }
    let plan = Plan::of(&pooled);
    let (arrays, draws) = (plan.array_count(), plan.denominator());
    text += &format!("the pooled plan: {arrays} arrays, {draws} draws\n");
    Ok(text)
}

/// The cells for which the list expects cartons.
fn changed(list: &Table) -> impl Iterator<Item = usize> + '_ {
    (0..list.cells().len()).filter(|&cell| list.cells()[cell] > 0)
}

/// How many cartons a table expects of a cell.
fn expected(table: &Table, cell: usize) -> f64 {
    f64::from(table.cells()[cell]) / f64::from(table.denominator())
}

#[cfg(test)]
mod tests {
    use super::*;

    #[test]
    fn the_example_runs() {
        assert_eq!(main(), Ok(()));
    }

    #[test]
    fn the_recall_is_described() {
        let (standing, list) = (standing().expect("accepted"), week().expect("accepted"));
        let text = described(&standing, &list);
        let expected = "middle, infusions: 1.90 standing, 0.75 on the list, 2.65 pooled\n\
            cold, ampoules: 1.40 standing, 0.50 on the list, 1.90 pooled\n\
            the pooled plan: 6 arrays, 20 draws\n";
        assert_eq!(text.as_deref(), Ok(expected));
    }

    #[test]
    fn an_empty_list_leaves_the_standing_plan() {
        let standing = standing().expect("accepted");
        let empty = table(10, [[0; 4]; 3]).expect("accepted");
        let text = described(&standing, &empty);
        assert_eq!(text.as_deref(), Ok("the pooled plan: 6 arrays, 10 draws\n"));
        assert_eq!(standing.pool(&empty), Ok(standing));
    }

    #[test]
    fn a_list_over_too_large_a_denominator_is_refused() {
        let standing = standing().expect("accepted");
        let list = table(65_521, [[1; 4]; 3]).expect("accepted");
        let refused = Err(PoolError::Refused(Refusal::Multiple));
        assert_eq!(described(&standing, &list), refused);
    }
}
