//! A plan from a file: its sizes, its table, and how often each array is drawn.
//!
//! `plan_from_file FILE` reads a stored plan, whoever made it. Without a file it stores
//! the plan of a small table first, and reads that.

use lufodimi::{Plan, Table};
use std::error::Error;
use std::fs;
use std::path::Path;
use std::{env, process};

fn main() -> Result<(), Box<dyn Error>> {
    let text = match env::args_os().nth(1) {
        Some(file) => described(file.as_ref())?,
        None => of_stored_sample()?,
    };
    print!("{text}");
    Ok(())
}

/// Stores the plan of a small table, reads it again and removes it.
fn of_stored_sample() -> Result<String, Box<dyn Error>> {
    let plan = Plan::of(&Table::new(2, 2, 10, [3, 4, 5, 6])?);
    let file = env::temp_dir().join(format!("lufodimi-plan-{}", process::id()));
    fs::write(&file, plan.as_bytes())?;
    let text = described(&file);
    fs::remove_file(&file)?;
    text
}

/// What the plan in a file says.
fn described(file: &Path) -> Result<String, Box<dyn Error>> {
    let plan = Plan::open(fs::read(file)?)?;
    let mut text = format!(
        "{} rows, {} columns, {} arrays over {}\n",
        plan.rows(),
        plan.columns(),
        plan.array_count(),
        plan.denominator()
    );
    for row in plan.cells().chunks(plan.columns() as usize) {
        text += &format!("expected: {row:?} over {}\n", plan.denominator());
    }
    for array in plan.arrays() {
        text += &format!("{:?} by {} numbers\n", array.counts, array.weight);
    }
    Ok(text)
}

#[cfg(test)]
mod tests {
    use super::*;
    use lufodimi::Refusal;

    #[test]
    fn the_sample_is_described() {
        let text = of_stored_sample().expect("it is stored and opens");
        let expected = "2 rows, 2 columns, 4 arrays over 10\n\
            expected: [3, 4] over 10\n\
            expected: [5, 6] over 10\n\
            [0, 0, 0, 1] by 2 numbers\n\
            [0, 0, 1, 1] by 1 numbers\n\
            [0, 1, 1, 0] by 4 numbers\n\
            [1, 0, 0, 1] by 3 numbers\n";
        assert_eq!(text, expected);
    }

    #[test]
    fn a_file_that_is_no_plan_is_refused() {
        let file = env::temp_dir().join(format!("lufodimi-no-plan-{}", process::id()));
        fs::write(&file, "a letter").expect("it can be written");
        let refused = described(&file);
        fs::remove_file(&file).expect("it is there");
        let error = refused.expect_err("no plan");
        assert_eq!(error.downcast_ref(), Some(&Refusal::Layout));
    }
}
