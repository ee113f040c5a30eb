//! Stock corrections rounded to whole cartons.
//!
//! A pharmacy has counted its stock. The sheet says by how much each zone's kinds are off
//! from what is booked, in quarters of a carton, since opened cartons count too; what is
//! missing is negative. Only whole cartons are booked. The example prints the sheet before
//! and after it is rounded: every cell and every total is rounded down or up, what is whole
//! stays, and the rounded cells add up to the rounded totals.

use lufodimi::{Corrections, Refusal};

const ZONES: [&str; 3] = ["front", "middle", "cold"];
const KINDS: [&str; 4] = ["tablets", "ampoules", "insulin", "infusions"];

fn main() -> Result<(), Refusal> {
    print!("{}", described(&counted()?));
    Ok(())
}

/// A zone a row: -6 is one carton and a half too few.
fn counted() -> Result<Corrections, Refusal> {
    sheet([[-6, 1, 0, -3], [2, -3, -2, 4], [0, -5, -10, 1]])
}

/// A correction sheet of all zones and kinds, in quarters of a carton.
fn sheet(zones: [[i32; 4]; 3]) -> Result<Corrections, Refusal> {
    Corrections::new(3, 4, 4, zones.concat())
}

/// The sheet before and after it is rounded.
fn described(sheet: &Corrections) -> String {
    let denominator = f64::from(sheet.denominator());
    let counts: Vec<i32> = sheet.round().into_iter().map(i32::from).collect();
    let before = lines("off by", sheet.cells(), |cell| {
        format!("{:.2}", f64::from(cell) / denominator)
    });
    let after = lines("to book", &counts, |count| count.to_string());
    format!("{before}\n{after}")
}

/// Cells under a heading, a zone a line, with their totals.
fn lines(heading: &str, cells: &[i32], shown: impl Fn(i32) -> String) -> String {
    let mut rows: Vec<Vec<i32>> = cells.chunks(KINDS.len()).map(Vec::from).collect();
    let total = |kind: usize| rows.iter().map(|row| row[kind]).sum();
    rows.push((0..KINDS.len()).map(total).collect());

    let headings = KINDS.into_iter().chain(["together"]);
    let mut text = line(heading, headings.map(String::from));
    for (name, row) in ZONES.into_iter().chain(["together"]).zip(&rows) {
        let entries = row.iter().copied().chain([row.iter().sum()]);
        text += &line(name, entries.map(&shown));
    }
    text
}

/// A name and what stands beside it, in columns.
fn line(name: &str, words: impl Iterator<Item = String>) -> String {
    let mut text = format!("{name:<8}");
    for word in words {
        text += &format!(" {word:>9}");
    }
    text + "\n"
}

#[cfg(test)]
mod tests {
    use super::*;

    #[test]
    fn the_example_runs() {
        assert_eq!(main(), Ok(()));
    }

    #[test]
    fn the_sheet_is_described() {
        let text = counted().map(|counted| described(&counted));
        let expected = "\
            off by     tablets  ampoules   insulin infusions  together\n\
            front        -1.50      0.25      0.00     -0.75     -2.00\n\
            middle        0.50     -0.75     -0.50      1.00      0.25\n\
            cold          0.00     -1.25     -2.50      0.25     -3.50\n\
            together     -1.00     -1.75     -3.00      0.50     -5.25\n\
            \n\
            to book    tablets  ampoules   insulin infusions  together\n\
            front           -2         0         0         0        -2\n\
            middle           1        -1        -1         1         0\n\
            cold             0        -1        -2         0        -3\n\
            together        -1        -2        -3         1        -5\n";
        assert_eq!(text.as_deref(), Ok(expected));
    }

    #[test]
    fn whole_cartons_stay() {
        let whole = sheet([[-4, 0, 8, 0], [0, 4, -40, 4], [-4, -4, 0, 4000]]);
        let counts = [-1, 0, 2, 0, 0, 1, -10, 1, -1, -1, 0, 1000];
        assert_eq!(whole.map(|whole| whole.round()), Ok(counts.to_vec()));
    }

    #[test]
    fn more_than_a_thousand_cartons_are_refused() {
        let too_few = sheet([[0, 0, 0, 0], [0, -4001, 0, 0], [0, 0, 0, 0]]);
        assert_eq!(too_few, Err(Refusal::LargeCell));
    }
}
