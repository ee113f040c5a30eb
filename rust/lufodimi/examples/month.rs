//! A month's draw, with the campaign's record kept in a file from month to month.
//!
//! The number is drawn evenly among those that are free, from the random numbers of the
//! operating system. The example plays two rounds of a campaign, one month after another,
//! prints how many cartons to open in each, a zone after another, and shows what no draw
//! changes: in each round each cell is drawn as often as planned. The second round begins
//! by itself.

use lufodimi::{Campaign, Plan, Record, Table};
use std::error::Error;
use std::fs::{self, File};
use std::io::{self, Read};
use std::path::Path;
use std::{env, process};

/// Three shelf zones by four carton kinds, tenths of a carton a month.
const CELLS: [u32; 12] = [45, 23, 0, 12, 31, 26, 4, 19, 0, 14, 52, 14];

fn main() -> Result<(), Box<dyn Error>> {
    let plan = Plan::of(&Table::new(3, 4, 10, CELLS)?);
    let file = env::temp_dir().join(format!("lufodimi-month-{}", process::id()));
    keep(&file, Campaign::start(&plan).record())?;
    for month in 1..=2 * plan.denominator() {
        let mut campaign = kept(&plan, &file)?;
        let counts = draw(&mut campaign, &file)?;
        let zones: Vec<&[u16]> = counts.chunks(4).collect();
        let rounds = campaign.rounds();
        println!("month {month}: open {zones:?}, rounds completed: {rounds}");
    }
    let campaign = kept(&plan, &file)?;
    fs::remove_file(&file)?;
    println!("planned for a round:  {:?}", plan.cells());
    println!("drawn in both rounds: {:?}", campaign.tally());
    assert_eq!(
        (campaign.rounds(), campaign.tally()),
        (2, &CELLS.map(|cell| 2 * u64::from(cell))[..])
    );
    Ok(())
}

/// How many cartons to open this month, cell by cell. The draw is kept before it is told.
fn draw(campaign: &mut Campaign, file: &Path) -> Result<Vec<u16>, Box<dyn Error>> {
    let counts = campaign.draw(free_number(campaign)?)?;
    keep(file, campaign.record())?;
    Ok(counts)
}

/// One of the free numbers of the round, each with the same chance.
fn free_number(campaign: &Campaign) -> io::Result<u32> {
    let mut free = campaign.remaining();
    let count = u32::try_from(free.len()).expect("there are at most 65,535");
    let place = below(count, &mut File::open("/dev/urandom")?)?;
    Ok(free.nth(place as usize).expect("a number is always free"))
}

/// A number below `bound`, each with the same chance. A random number that is not below
/// the largest multiple of `bound` is not used: low remainders would come more often.
fn below(bound: u32, source: &mut impl Read) -> io::Result<u32> {
    let multiple = u32::MAX - u32::MAX % bound;
    loop {
        let mut bytes = [0; 4];
        source.read_exact(&mut bytes)?;
        let random = u32::from_le_bytes(bytes);
        if random < multiple {
            return Ok(random % bound);
        }
    }
}

/// The campaign as its file has it.
fn kept<'p>(plan: &'p Plan, file: &Path) -> Result<Campaign<'p>, Box<dyn Error>> {
    let record = Record::from_bytes(&fs::read(file)?)?;
    Ok(Campaign::resume(plan, record)?)
}

/// Replaces the record in one step, so that the file is always whole.
fn keep(file: &Path, record: &Record) -> io::Result<()> {
    let next = file.with_extension("next");
    fs::write(&next, record.to_bytes())?;
    fs::rename(&next, file)
}

#[cfg(test)]
mod tests {
    use super::*;

    #[test]
    fn the_example_runs() {
        main().expect("it runs to its end");
    }

    #[test]
    fn months_draw_the_table_in_each_round() {
        let plan = Plan::of(&Table::new(2, 3, 4, [1, 2, 3, 5, 6, 7]).expect("accepted"));
        let file = env::temp_dir().join(format!("lufodimi-months-{}", process::id()));
        keep(&file, Campaign::start(&plan).record()).expect("it can be written");
        let mut rounds = Vec::new();
        for _ in 0..3 {
            let mut drawn = [0; 6];
            for _ in 0..4 {
                let month = draw(&mut kept(&plan, &file).expect("it is kept"), &file);
                for (sum, count) in drawn.iter_mut().zip(month.expect("accepted")) {
                    *sum += u32::from(count);
                }
            }
            rounds.push(drawn);
        }
        fs::remove_file(&file).expect("it is there");
        assert!(rounds.iter().all(|drawn| drawn == plan.cells()));
    }

    #[test]
    fn after_the_last_round_no_month_is_drawn_or_kept() {
        let plan = Plan::of(&Table::new(1, 1, 1, [5]).expect("accepted"));
        let file = env::temp_dir().join(format!("lufodimi-over-{}", process::id()));
        let mut campaign = Campaign::start(&plan);
        while !campaign.is_over() {
            campaign.draw(0).expect("accepted");
        }
        assert!(draw(&mut campaign, &file).is_err());
        assert!(!file.exists());
    }

    #[test]
    fn what_would_come_more_often_is_not_used() {
        let mut source = &[255, 255, 255, 255, 254, 255, 255, 255][..];
        let found = below(5, &mut source);
        // 4,294,967,295 is a multiple of 5, and 4,294,967,294 below it
        assert_eq!(found.expect("there are bytes"), 4);
        assert!(source.is_empty());
    }
}
