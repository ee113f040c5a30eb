mod error;

pub use error::RecordError;

use crate::Plan;
use alloc::vec;
use alloc::vec::Vec;
use lufodimi_sys::lufodimi_record;

/// What a campaign keeps between draws: how many rounds are completed, how many numbers
/// are taken in this round, which ones, and the sum of all arrays drawn.
///
/// [`Campaign::record`](crate::Campaign::record) gives it,
/// [`Campaign::resume`](crate::Campaign::resume) goes on with it, and in between it is
/// kept as bytes.
///
/// ```
/// use lufodimi::{Campaign, Plan, Record, Table};
///
/// let plan = Plan::of(&Table::new(1, 1, 3, [2])?);
/// let mut campaign = Campaign::start(&plan);
/// campaign.draw(2)?;
/// let record = campaign.into_record();
/// assert_eq!((record.taken(), record.tally()), (1, &[1][..]));
/// assert_eq!(Record::from_bytes(&record.to_bytes()), Ok(record));
/// # Ok::<(), lufodimi::Refusal>(())
/// ```
#[derive(Clone, Debug, PartialEq, Eq, Hash)]
pub struct Record {
    pub(crate) progress: lufodimi_record,
    pub(crate) bits: Vec<u8>,
    pub(crate) tally: Vec<u64>,
    /// Whether it was read in form 1, and no campaign has gone on with it since: then all
    /// numbers taken are a completed round.
    is_old: bool,
}

/// The bytes before the bits.
const HEAD: usize = 20;

impl Record {
    /// The bytes that every stored record begins with.
    ///
    /// ```
    /// assert_eq!(&lufodimi::Record::MAGIC, b"LUFR");
    /// ```
    pub const MAGIC: [u8; 4] = *b"LUFR";

    /// The form in which the records of campaigns are stored. Those of form 1 are still
    /// read.
    ///
    /// ```
    /// assert_eq!(lufodimi::Record::FORM, 2);
    /// ```
    pub const FORM: u16 = 2;

    /// A record as long as a campaign on this plan needs, all zero.
    pub(crate) fn zero(plan: &Plan) -> Record {
        Record {
            progress: lufodimi_record::default(),
            bits: vec![0; bytes_of_bits(plan)],
            tally: vec![0; plan.cells().len()],
            is_old: false,
        }
    }

    /// Whether the record is just as long as a campaign on this plan needs.
    pub(crate) fn has_lengths_of(&self, plan: &Plan) -> bool {
        self.bits.len() == bytes_of_bits(plan) && self.tally.len() == plan.cells().len()
    }

    /// The record, which has the lengths of this plan, as campaigns have it now. One that
    /// was read in form 1 has completed no round, or the first if it has all numbers taken.
    pub(crate) fn converted(self, plan: &Plan) -> Record {
        let record = if self.is_old && self.has_all_taken(plan.denominator()) {
            self.after_first_round()
        } else {
            self
        };
        Record {
            is_old: false,
            ..record
        }
    }

    /// Whether count and bits say that every number below the denominator is taken, and no
    /// spare bit is set.
    fn has_all_taken(&self, denominator: u32) -> bool {
        let set: u32 = self.bits.iter().map(|byte| byte.count_ones()).sum();
        (self.taken(), set) == (denominator, denominator)
            && (0..denominator).all(|number| self.is_set(number))
    }

    /// The record after its first round, with the same tally.
    fn after_first_round(self) -> Record {
        Record {
            progress: lufodimi_record {
                taken: 0,
                rounds: 1,
            },
            bits: vec![0; self.bits.len()],
            ..self
        }
    }

    /// Whether the bit of a number is set; a number beyond the bits has none.
    pub(crate) fn is_set(&self, number: u32) -> bool {
        let byte = self.bits.get((number / 8) as usize);
        byte.is_some_and(|byte| byte >> (number % 8) & 1 == 1)
    }

    /// How many numbers are taken in this round.
    ///
    /// ```
    /// use lufodimi::{Campaign, Plan, Table};
    ///
    /// let plan = Plan::of(&Table::new(1, 1, 3, [2])?);
    /// assert_eq!(Campaign::start(&plan).record().taken(), 0);
    /// # Ok::<(), lufodimi::Refusal>(())
    /// ```
    pub fn taken(&self) -> u32 {
        self.progress.taken
    }

    /// How many rounds are completed.
    ///
    /// ```
    /// use lufodimi::{Campaign, Plan, Table};
    ///
    /// let plan = Plan::of(&Table::new(1, 1, 1, [5])?);
    /// let mut campaign = Campaign::start(&plan);
    /// campaign.draw(0)?;
    /// assert_eq!(campaign.record().rounds(), 1);
    /// # Ok::<(), lufodimi::Refusal>(())
    /// ```
    pub fn rounds(&self) -> u16 {
        self.progress.rounds
    }

    /// The sum of the arrays drawn in all rounds, cell by cell in row order.
    ///
    /// ```
    /// use lufodimi::{Campaign, Plan, Table};
    ///
    /// let plan = Plan::of(&Table::new(1, 2, 4, [4, 6])?);
    /// assert_eq!(Campaign::start(&plan).record().tally(), [0, 0]);
    /// # Ok::<(), lufodimi::Refusal>(())
    /// ```
    pub fn tally(&self) -> &[u64] {
        &self.tally
    }

    /// The stored record. Its form 2 has, with the low byte of each number first:
    ///
    /// | bytes | what |
    /// |---|---|
    /// | 0 to 3 | `LUFR` |
    /// | 4 and 5 | the form, 2 |
    /// | 6 and 7 | how many rounds are completed |
    /// | 8 to 11 | how many numbers are taken in this round |
    /// | 12 to 15 | b, how many bytes of bits follow |
    /// | 16 to 19 | t, how many numbers the tally has |
    /// | then b bytes | the bits: number d in bit d mod 8, lowest first, of byte d / 8 |
    /// | then 8·t bytes | the tally, 8 bytes a number, in row order |
    ///
    /// Nothing follows. Form 1 knows no rounds: it has zero in bytes 6 and 7, and 4 bytes
    /// for each number of the tally. A record that was read in form 1 is stored in form 1
    /// again, until a campaign goes on with it.
    ///
    /// ```
    /// use lufodimi::{Campaign, Plan, Table};
    ///
    /// let plan = Plan::of(&Table::new(1, 1, 3, [2])?);
    /// let mut campaign = Campaign::start(&plan);
    /// for number in [0, 1, 2, 2] {
    ///     campaign.draw(number)?;
    /// }
    /// let (head, rounds) = (b"LUFR\x02\0", [1, 0]);
    /// let (taken, b, t) = ([1, 0, 0, 0], [1, 0, 0, 0], [1, 0, 0, 0]);
    /// let (bits, tally) = ([0b100], [3, 0, 0, 0, 0, 0, 0, 0]);
    /// let stored = [&head[..], &rounds, &taken, &b, &t, &bits, &tally].concat();
    /// assert_eq!(campaign.record().to_bytes(), stored);
    /// # Ok::<(), lufodimi::Refusal>(())
    /// ```
    pub fn to_bytes(&self) -> Vec<u8> {
        let (form, width) = if self.is_old {
            (1, 4)
        } else {
            (Record::FORM, 8)
        };
        let mut bytes = Vec::with_capacity(HEAD + self.bits.len() + width * self.tally.len());
        bytes.extend(Record::MAGIC);
        bytes.extend(form.to_le_bytes());
        bytes.extend(self.rounds().to_le_bytes());
        for number in [self.taken(), length(&self.bits), length(&self.tally)] {
            bytes.extend(number.to_le_bytes());
        }
        bytes.extend(&self.bits);
        for sum in &self.tally {
            bytes.extend(&sum.to_le_bytes()[..width]);
        }
        bytes
    }

    /// Reads a stored record, of form 2 or of form 1, which has no rounds. Whether it fits
    /// a plan is what [`Campaign::resume`](crate::Campaign::resume) finds out.
    ///
    /// ```
    /// use lufodimi::{Record, RecordError};
    ///
    /// assert_eq!(Record::from_bytes(b"a letter"), Err(RecordError::Magic));
    /// assert_eq!(Record::from_bytes(b"LUFR\x03\0"), Err(RecordError::Form(3)));
    /// assert_eq!(Record::from_bytes(b"LUFR\x02\0"), Err(RecordError::Layout));
    /// ```
    ///
    /// Number 2 of 3 was taken when this one was stored, in form 1:
    ///
    /// ```
    /// use lufodimi::{Campaign, Plan, Record, Table};
    /// # use std::error::Error;
    ///
    /// # fn main() -> Result<(), Box<dyn Error>> {
    /// let stored = b"LUFR\x01\0\0\0\x01\0\0\0\x01\0\0\0\x01\0\0\0\x04\x01\0\0\0";
    /// let record = Record::from_bytes(stored)?;
    /// assert_eq!((record.rounds(), record.taken(), record.tally()), (0, 1, &[1][..]));
    ///
    /// let plan = Plan::of(&Table::new(1, 1, 3, [2])?);
    /// assert!(Campaign::resume(&plan, record)?.is_taken(2));
    /// # Ok(())
    /// # }
    /// ```
    ///
    /// # Errors
    ///
    /// [`RecordError::Magic`] if the bytes do not begin as a stored record does,
    /// [`RecordError::Form`] if the record is stored in another form than 1 or 2, and
    /// [`RecordError::Layout`] if the zero field of form 1 or the length is wrong.
    pub fn from_bytes(bytes: &[u8]) -> Result<Record, RecordError> {
        let rest = bytes.strip_prefix(&Record::MAGIC);
        let (form, rest) = rest
            .ok_or(RecordError::Magic)?
            .split_first_chunk()
            .ok_or(RecordError::Layout)?;
        let record = match u16::from_le_bytes(*form) {
            1 => body(rest, 4, true).filter(|record| record.rounds() == 0),
            Record::FORM => body(rest, 8, false),
            other => return Err(RecordError::Form(other)),
        };
        record.ok_or(RecordError::Layout)
    }
}

/// The record that follows magic and form, if the length is right. A number of the tally
/// takes so many bytes; the form is 1 where the record is old.
fn body(bytes: &[u8], width: usize, is_old: bool) -> Option<Record> {
    let (rounds, rest) = bytes.split_first_chunk()?;
    let (taken, rest) = number(rest)?;
    let (bits_length, rest) = number(rest)?;
    let (tally_length, rest) = number(rest)?;
    let (bits, rest) = rest.split_at_checked(usize::try_from(bits_length).ok()?)?;
    let is_whole = rest.len() as u64 == width as u64 * u64::from(tally_length);
    is_whole.then(|| Record {
        progress: lufodimi_record {
            taken,
            rounds: u16::from_le_bytes(*rounds),
        },
        bits: bits.to_vec(),
        tally: rest.chunks_exact(width).map(widened).collect(),
        is_old,
    })
}

/// The number of 4 bytes at the start, and what follows it.
fn number(bytes: &[u8]) -> Option<(u32, &[u8])> {
    let (first, rest) = bytes.split_first_chunk()?;
    Some((u32::from_le_bytes(*first), rest))
}

/// The number of these bytes, which are at most 8.
fn widened(bytes: &[u8]) -> u64 {
    let mut wide = [0; 8];
    wide[..bytes.len()].copy_from_slice(bytes);
    u64::from_le_bytes(wide)
}

/// The length of a part, which has at most 8,192 items where it belongs to a plan.
fn length<T>(part: &[T]) -> u32 {
    u32::try_from(part.len()).expect("a part is read with a length of 32 bits")
}

/// The bytes that hold a bit for each draw number.
fn bytes_of_bits(plan: &Plan) -> usize {
    plan.denominator().div_ceil(8) as usize
}
