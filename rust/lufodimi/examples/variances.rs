//! How much the counts of cells vary from month to month, and which cells replace each
//! other.
//!
//! A month opens more cartons of one kind and fewer of another than expected. The
//! covariance of two cells is negative if one tends to replace the other, and positive if
//! they tend to come together. Where a zone's total is whole it never varies, so all
//! variances and covariances of the zone's cells add up to 0.

use lufodimi::{Plan, Refusal, Table};

const ZONES: [&str; 3] = ["front", "middle", "cold"];
const KINDS: [&str; 4] = ["tablets", "ampoules", "insulin", "infusions"];

fn main() -> Result<(), Refusal> {
    let cells = [45, 23, 0, 12, 31, 26, 4, 19, 0, 14, 52, 14];
    let plan = Plan::of(&Table::new(3, 4, 10, cells)?);
    print!("{}{}", overall(&plan), zone(&plan, 1));
    Ok(())
}

/// What the three numbers of a plan say.
fn overall(plan: &Plan) -> String {
    let variances = plan.variances();
    format!(
        "all cell variances together: {:.2}\n\
         covariances of two cells: from {:.2} to {:.2}\n",
        over_square(plan, variances.variance_sum),
        over_square(plan, variances.smallest_covariance),
        over_square(plan, variances.largest_covariance)
    )
}

/// The cells of a zone, each two of them, and the zone's total.
fn zone(plan: &Plan, zone: usize) -> String {
    let first = zone * KINDS.len();
    let covariances = plan.covariances();
    let numerator = |a: usize, b: usize| {
        covariances
            .of(first + a, first + b)
            .expect("the zone has a cell of each kind")
    };
    let mut text = format!("{} zone:\n", ZONES[zone]);
    let mut of_total = 0;
    for (a, one) in KINDS.iter().enumerate() {
        of_total += numerator(a, a);
        for (b, other) in KINDS.iter().enumerate().skip(a + 1) {
            // each two stand twice among the ordered pairs
            of_total += 2 * numerator(a, b);
            let covariance = over_square(plan, numerator(a, b));
            text += &format!(
                "  {one} and {other}: {covariance:.2}, {}\n",
                said(covariance)
            );
        }
    }
    text + &format!("  its total: {:.2}\n", over_square(plan, of_total))
}

/// What a covariance says of two cells.
fn said(covariance: f64) -> &'static str {
    if covariance < 0.0 {
        "one tends to replace the other"
    } else if covariance > 0.0 {
        "they tend to come together"
    } else {
        "neither"
    }
}

/// A numerator over the squared denominator.
fn over_square(plan: &Plan, numerator: i64) -> f64 {
    numerator as f64 / f64::from(plan.denominator()).powi(2)
}

#[cfg(test)]
mod tests {
    use super::*;

    #[test]
    fn the_example_runs() {
        assert_eq!(main(), Ok(()));
    }

    #[test]
    fn two_kinds_that_fill_a_zone_replace_each_other() {
        let cells = [6, 4, 0, 0, 0, 0, 0, 0, 0, 0, 0, 0];
        let plan = Plan::of(&Table::new(3, 4, 10, cells).expect("accepted"));
        let front = zone(&plan, 0);
        assert!(front.contains("tablets and ampoules: -0.24, one tends to replace the other\n"));
        assert!(front.contains("tablets and insulin: 0.00, neither\n"));
        assert!(front.ends_with("its total: 0.00\n"));
        let expected = "all cell variances together: 0.48\n\
            covariances of two cells: from -0.24 to 0.00\n";
        assert_eq!(overall(&plan), expected);
    }
}
