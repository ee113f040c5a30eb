mod remaining;

pub use remaining::Remaining;

use crate::refusal::accepted;
use crate::{Plan, Record, Refusal};
use alloc::vec;
use alloc::vec::Vec;

/// A campaign: draws on a plan in rounds that use every number once. In a completed round
/// each cell has been drawn exactly as often as planned.
///
/// The draw that takes the last free number of a round completes it, and the next one
/// begins by itself, with all numbers free, until [`ROUNDS`](Campaign::ROUNDS) are done.
///
/// Chances are those of the plan only if each number is drawn evenly among those that
/// [`remain`](Campaign::remaining). Keep the [`record`](Campaign::record) of a draw
/// before its array is used: a draw that is not on record could be made again.
///
/// ```
/// use lufodimi::{Campaign, Plan, Table};
///
/// let plan = Plan::of(&Table::new(2, 2, 10, [3, 4, 5, 6])?);
/// let mut campaign = Campaign::start(&plan);
/// for number in 0..10 {
///     campaign.draw(number)?;
/// }
/// assert_eq!((campaign.rounds(), campaign.taken()), (1, 0));
/// assert_eq!(campaign.tally(), [3, 4, 5, 6]);
/// for number in 0..10 {
///     campaign.draw(number)?;
/// }
/// assert_eq!((campaign.rounds(), campaign.taken()), (2, 0));
/// assert_eq!(campaign.tally(), [6, 8, 10, 12]);
/// # Ok::<(), lufodimi::Refusal>(())
/// ```
#[derive(Clone, Debug, PartialEq, Eq)]
pub struct Campaign<'p> {
    plan: &'p Plan,
    record: Record,
}

impl<'p> Campaign<'p> {
    /// How many rounds a campaign has.
    ///
    /// ```
    /// assert_eq!(lufodimi::Campaign::ROUNDS, 1000);
    /// ```
    pub const ROUNDS: u16 = 1000;

    /// Starts a campaign: no round is completed, and no number is taken.
    ///
    /// ```
    /// use lufodimi::{Campaign, Plan, Table};
    ///
    /// let plan = Plan::of(&Table::new(1, 1, 3, [2])?);
    /// let campaign = Campaign::start(&plan);
    /// assert_eq!((campaign.rounds(), campaign.taken(), campaign.tally()), (0, 0, &[0][..]));
    /// # Ok::<(), lufodimi::Refusal>(())
    /// ```
    pub fn start(plan: &'p Plan) -> Campaign<'p> {
        let mut record = Record::zero(plan);
        // The plan opens and the record is as long as it needs: that no refusal applies
        // then is proved of the library.
        accepted(lufodimi_sys::start(
            plan.as_bytes(),
            &mut record.progress,
            &mut record.bits,
            &mut record.tally,
        ))
        .expect("a plan that opens starts a campaign");
        Campaign { plan, record }
    }

    /// Goes on with a campaign from its record.
    ///
    /// ```
    /// use lufodimi::{Campaign, Plan, Refusal, Table};
    ///
    /// let plan = Plan::of(&Table::new(1, 1, 3, [2])?);
    /// let mut campaign = Campaign::start(&plan);
    /// campaign.draw(2)?;
    /// let record = campaign.record().clone();
    /// assert_eq!(Campaign::resume(&plan, record.clone()), Ok(campaign));
    ///
    /// let other = Plan::of(&Table::new(1, 2, 3, [1, 1])?);
    /// assert_eq!(Campaign::resume(&other, record), Err(Refusal::Record));
    /// # Ok::<(), Refusal>(())
    /// ```
    ///
    /// A record of form 1, from before there were rounds, may have all numbers taken, which
    /// none has any more. If no spare bit is set, it is gone on with as what it is now: a
    /// completed round, with nothing taken in the next.
    ///
    /// ```
    /// use lufodimi::{Campaign, Plan, Record, Table};
    /// # use std::error::Error;
    ///
    /// # fn main() -> Result<(), Box<dyn Error>> {
    /// let plan = Plan::of(&Table::new(1, 1, 3, [2])?);
    /// let stored = b"LUFR\x01\0\0\0\x03\0\0\0\x01\0\0\0\x01\0\0\0\x07\x02\0\0\0";
    /// let campaign = Campaign::resume(&plan, Record::from_bytes(stored)?)?;
    /// assert_eq!((campaign.rounds(), campaign.taken(), campaign.tally()), (1, 0, &[2][..]));
    /// # Ok(())
    /// # }
    /// ```
    ///
    /// # Errors
    ///
    /// [`Refusal::Record`] if the record does not fit the plan: its lengths are others, a
    /// spare bit is set, the count is not that of the numbers taken, the rounds are above
    /// [`ROUNDS`](Campaign::ROUNDS), no number is free, a number is taken after the last
    /// round, or the tally is not the rounds times the table and the arrays of the numbers
    /// taken in this round. A record of form 1 with all numbers taken does not fit if its
    /// tally is not the table.
    pub fn resume(plan: &'p Plan, record: Record) -> Result<Campaign<'p>, Refusal> {
        if !record.has_lengths_of(plan) {
            return Err(Refusal::Record);
        }
        let record = record.converted(plan);
        let campaign = Campaign { plan, record };
        // A draw tells first whether the record fits, and then whether the rounds are done
        // and the number is taken; number 0 is below every denominator.
        match campaign.clone().draw(0) {
            Ok(_) | Err(Refusal::Rounds | Refusal::Taken) => Ok(campaign),
            Err(refusal) => Err(refusal),
        }
    }

    /// Takes a number, and gives the array that belongs to it, counts in row order. With
    /// the last free number the round is completed, and all numbers are free again.
    ///
    /// ```
    /// use lufodimi::{Campaign, Plan, Refusal, Table};
    ///
    /// let plan = Plan::of(&Table::new(1, 1, 3, [2])?);
    /// let mut campaign = Campaign::start(&plan);
    /// assert_eq!(campaign.draw(2)?, [1]);
    /// assert_eq!(campaign.draw(2), Err(Refusal::Taken));
    /// assert_eq!(campaign.draw(3), Err(Refusal::Number));
    /// # Ok::<(), Refusal>(())
    /// ```
    ///
    /// # Errors
    ///
    /// [`Refusal::Number`] if the number is not below the plan's denominator,
    /// [`Refusal::Rounds`] if [`ROUNDS`](Campaign::ROUNDS) are done, and
    /// [`Refusal::Taken`] if the number is taken in this round.
    pub fn draw(&mut self, number: u32) -> Result<Vec<u16>, Refusal> {
        let mut counts = vec![0; self.plan.cells().len()];
        accepted(lufodimi_sys::campaign_draw(
            self.plan.as_bytes(),
            number,
            &mut self.record.progress,
            &mut self.record.bits,
            &mut self.record.tally,
            &mut counts,
        ))?;
        Ok(counts)
    }

    /// The plan that the campaign draws from.
    ///
    /// ```
    /// use lufodimi::{Campaign, Plan, Table};
    ///
    /// let plan = Plan::of(&Table::new(1, 1, 3, [2])?);
    /// assert_eq!(Campaign::start(&plan).plan(), &plan);
    /// # Ok::<(), lufodimi::Refusal>(())
    /// ```
    pub fn plan(&self) -> &'p Plan {
        self.plan
    }

    /// Whether a number is taken in this round. One that is not below the denominator
    /// never is.
    ///
    /// ```
    /// use lufodimi::{Campaign, Plan, Table};
    ///
    /// let plan = Plan::of(&Table::new(1, 1, 3, [2])?);
    /// let mut campaign = Campaign::start(&plan);
    /// campaign.draw(2)?;
    /// assert!(campaign.is_taken(2) && !campaign.is_taken(0) && !campaign.is_taken(3));
    /// # Ok::<(), lufodimi::Refusal>(())
    /// ```
    pub fn is_taken(&self, number: u32) -> bool {
        self.record.is_set(number)
    }

    /// How many numbers are taken in this round.
    ///
    /// ```
    /// use lufodimi::{Campaign, Plan, Table};
    ///
    /// let plan = Plan::of(&Table::new(1, 1, 3, [2])?);
    /// let mut campaign = Campaign::start(&plan);
    /// campaign.draw(2)?;
    /// assert_eq!(campaign.taken(), 1);
    /// # Ok::<(), lufodimi::Refusal>(())
    /// ```
    pub fn taken(&self) -> u32 {
        self.record.taken()
    }

    /// How many rounds are completed. The tally then has the table so many times, and what
    /// was drawn in this round.
    ///
    /// ```
    /// use lufodimi::{Campaign, Plan, Table};
    ///
    /// let plan = Plan::of(&Table::new(1, 1, 2, [3])?);
    /// let mut campaign = Campaign::start(&plan);
    /// campaign.draw(1)?;
    /// assert_eq!(campaign.rounds(), 0);
    /// campaign.draw(0)?;
    /// assert_eq!(campaign.rounds(), 1);
    /// # Ok::<(), lufodimi::Refusal>(())
    /// ```
    pub fn rounds(&self) -> u16 {
        self.record.rounds()
    }

    /// Whether [`ROUNDS`](Campaign::ROUNDS) are done. Then every draw is refused, and it is
    /// time to start a new campaign.
    ///
    /// ```
    /// use lufodimi::{Campaign, Plan, Refusal, Table};
    ///
    /// let plan = Plan::of(&Table::new(1, 1, 1, [5])?);
    /// let mut campaign = Campaign::start(&plan);
    /// while !campaign.is_over() {
    ///     campaign.draw(0)?;
    /// }
    /// assert_eq!((campaign.rounds(), campaign.tally()), (1000, &[5000][..]));
    /// assert_eq!(campaign.draw(0), Err(Refusal::Rounds));
    /// # Ok::<(), Refusal>(())
    /// ```
    pub fn is_over(&self) -> bool {
        self.rounds() == Campaign::ROUNDS
    }

    /// The numbers that are not taken in this round, in rising order. How many there are is
    /// known without counting, and the next draw is one of them, chosen evenly.
    ///
    /// There is always one. After the last round all numbers count as unused, but draws are
    /// refused by [`Refusal::Rounds`]; [`is_over`](Campaign::is_over) tells.
    ///
    /// ```
    /// use lufodimi::{Campaign, Plan, Table};
    ///
    /// let plan = Plan::of(&Table::new(1, 1, 3, [2])?);
    /// let mut campaign = Campaign::start(&plan);
    /// campaign.draw(1)?;
    /// assert_eq!(campaign.remaining().len(), 2);
    /// assert!(campaign.remaining().eq([0, 2]));
    /// assert_eq!(campaign.remaining().nth(1), Some(2));
    /// # Ok::<(), lufodimi::Refusal>(())
    /// ```
    pub fn remaining(&self) -> Remaining<'_> {
        Remaining::of(&self.record, self.plan.denominator())
    }

    /// The sum of the arrays drawn so far, in all rounds, cell by cell in row order.
    ///
    /// ```
    /// use lufodimi::{Campaign, Plan, Table};
    ///
    /// let plan = Plan::of(&Table::new(1, 2, 4, [4, 6])?);
    /// let mut campaign = Campaign::start(&plan);
    /// campaign.draw(3)?;
    /// assert_eq!(campaign.tally(), [1, 2]);
    /// # Ok::<(), lufodimi::Refusal>(())
    /// ```
    pub fn tally(&self) -> &[u64] {
        self.record.tally()
    }

    /// What to keep until the next draw.
    ///
    /// ```
    /// use lufodimi::{Campaign, Plan, Table};
    ///
    /// let plan = Plan::of(&Table::new(1, 1, 3, [2])?);
    /// let campaign = Campaign::start(&plan);
    /// let record = campaign.record().clone();
    /// assert_eq!(Campaign::resume(&plan, record), Ok(campaign));
    /// # Ok::<(), lufodimi::Refusal>(())
    /// ```
    pub fn record(&self) -> &Record {
        &self.record
    }

    /// The same, without a copy, where the campaign is not drawn from any more.
    ///
    /// ```
    /// use lufodimi::{Campaign, Plan, Table};
    ///
    /// let plan = Plan::of(&Table::new(1, 1, 3, [2])?);
    /// assert_eq!(Campaign::start(&plan).into_record().taken(), 0);
    /// # Ok::<(), lufodimi::Refusal>(())
    /// ```
    pub fn into_record(self) -> Record {
        self.record
    }
}
