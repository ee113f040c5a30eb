use crate::refusal::accepted;
use crate::{Array, Arrays, Covariances, Refusal, Table, Variances};
use alloc::vec;
use alloc::vec::Vec;
use lufodimi_sys::LUFODIMI_LONGEST_PLAN;

/// A plan that opens: a table, and arrays of counts with weights that add up to the
/// table's denominator. Every array keeps each cell, row and column and the whole at its
/// expectation rounded down or up, and the weighted arrays add up to the table.
///
/// It owns its bytes, which are the stored form that every caller of the library shares.
///
/// ```
/// use lufodimi::{Plan, Table};
///
/// let plan = Plan::of(&Table::new(2, 2, 10, [3, 4, 5, 6])?);
/// assert_eq!((plan.rows(), plan.columns(), plan.denominator()), (2, 2, 10));
/// assert_eq!(plan.draw(0)?, [0, 0, 0, 1]);
/// # Ok::<(), lufodimi::Refusal>(())
/// ```
#[derive(Clone, Debug, PartialEq, Eq, Hash)]
pub struct Plan {
    bytes: Vec<u8>,
    table: Table,
    array_count: u32,
}

/// The least length of a stored plan; where planning returns less, it is a refusal.
const SHORTEST_PLAN: u32 = 30;

impl Plan {
    /// The plan of a table. A table has one plan, and everybody gets the same.
    ///
    /// ```
    /// use lufodimi::{Plan, Table};
    ///
    /// let plan = Plan::of(&Table::new(1, 1, 3, [2])?);
    /// assert_eq!(plan.array_count(), 2);
    /// # Ok::<(), lufodimi::Refusal>(())
    /// ```
    pub fn of(table: &Table) -> Plan {
        // The table was accepted and the longest plan has room: that planning then gives
        // a plan, and that it opens, is proved of the library.
        planned(table)
            .and_then(Plan::open)
            .expect("an accepted table has a plan that opens")
    }

    /// Opens a stored plan, whoever made it.
    ///
    /// ```
    /// use lufodimi::{Plan, Refusal, Table};
    ///
    /// let plan = Plan::of(&Table::new(1, 1, 3, [2])?);
    /// assert_eq!(Plan::open(plan.as_bytes()), Ok(plan));
    /// assert_eq!(Plan::open([]), Err(Refusal::Layout));
    /// # Ok::<(), Refusal>(())
    /// ```
    ///
    /// Somebody else's plan has to keep what every plan keeps. In this one, with cells
    /// 1 0, 0 1 over 2, every cell, row and column keeps its bounds, but one array has no
    /// carton and the other two, where one is planned:
    ///
    /// ```
    /// # use lufodimi::{Plan, Refusal};
    /// # #[rustfmt::skip]
    /// let stored = [
    ///     1, 0, 2, 2, 2, 0, 0, 0, // form 1, two rows, two columns, two arrays
    ///     2, 0, 0, 0, 32, 0, 0, 0, // the denominator, and where the table stands
    ///     1, 0, 0, 0, 48, 0, 0, 0, // a weight, and where its array stands
    ///     1, 0, 0, 0, 56, 0, 0, 0,
    ///     1, 0, 0, 0, 0, 0, 0, 0, 0, 0, 0, 0, 1, 0, 0, 0, // the table
    ///     0, 0, 0, 0, 0, 0, 0, 0, // the first array
    ///     1, 0, 0, 0, 0, 0, 1, 0, // the second
    /// ];
    /// assert_eq!(Plan::open(stored), Err(Refusal::Content));
    /// ```
    ///
    /// # Errors
    ///
    /// [`Refusal::Layout`] if the bytes are not laid out as a stored plan, and
    /// [`Refusal::Content`] if another condition of opening is not met: a cell is above
    /// 1000 times the denominator, a weight is 0, the weights do not add up to the
    /// denominator, a cell, row total, column total or grand total of an array is not the
    /// table's rounded down or up, or the weighted arrays do not add up to the table.
    pub fn open(bytes: impl Into<Vec<u8>>) -> Result<Plan, Refusal> {
        let bytes = bytes.into();
        let mut sizes = [0; 4];
        accepted(lufodimi_sys::sizes(&bytes, &mut sizes))?;
        let [rows, columns, array_count, denominator] = sizes;
        let mut cells = vec![0; (rows * columns) as usize];
        accepted(lufodimi_sys::cells(&bytes, &mut cells))?;
        Ok(Plan {
            bytes,
            table: Table::opened(rows, columns, denominator, cells),
            array_count,
        })
    }

    /// The stored plan.
    ///
    /// ```
    /// let plan = lufodimi::Plan::of(&lufodimi::Table::new(1, 1, 1, [5])?);
    /// assert_eq!(plan.as_bytes().len(), 30);
    /// # Ok::<(), lufodimi::Refusal>(())
    /// ```
    pub fn as_bytes(&self) -> &[u8] {
        &self.bytes
    }

    /// The stored plan, without a copy.
    ///
    /// ```
    /// let plan = lufodimi::Plan::of(&lufodimi::Table::new(1, 1, 1, [5])?);
    /// assert_eq!(plan.clone().into_bytes(), plan.as_bytes());
    /// # Ok::<(), lufodimi::Refusal>(())
    /// ```
    pub fn into_bytes(self) -> Vec<u8> {
        self.bytes
    }

    /// The table that the plan is of.
    ///
    /// ```
    /// let table = lufodimi::Table::new(1, 2, 4, [4, 6])?;
    /// assert_eq!(lufodimi::Plan::of(&table).table(), &table);
    /// # Ok::<(), lufodimi::Refusal>(())
    /// ```
    pub fn table(&self) -> &Table {
        &self.table
    }

    /// How many rows the table has.
    ///
    /// ```
    /// let plan = lufodimi::Plan::of(&lufodimi::Table::new(1, 2, 4, [4, 6])?);
    /// assert_eq!(plan.rows(), 1);
    /// # Ok::<(), lufodimi::Refusal>(())
    /// ```
    pub fn rows(&self) -> u32 {
        self.table.rows()
    }

    /// How many columns the table has.
    ///
    /// ```
    /// let plan = lufodimi::Plan::of(&lufodimi::Table::new(1, 2, 4, [4, 6])?);
    /// assert_eq!(plan.columns(), 2);
    /// # Ok::<(), lufodimi::Refusal>(())
    /// ```
    pub fn columns(&self) -> u32 {
        self.table.columns()
    }

    /// The denominator, which is also how many draw numbers there are.
    ///
    /// ```
    /// let plan = lufodimi::Plan::of(&lufodimi::Table::new(1, 2, 4, [4, 6])?);
    /// assert_eq!(plan.denominator(), 4);
    /// # Ok::<(), lufodimi::Refusal>(())
    /// ```
    pub fn denominator(&self) -> u32 {
        self.table.denominator()
    }

    /// The cells of the table, in row order.
    ///
    /// ```
    /// let plan = lufodimi::Plan::of(&lufodimi::Table::new(1, 2, 4, [4, 6])?);
    /// assert_eq!(plan.cells(), [4, 6]);
    /// # Ok::<(), lufodimi::Refusal>(())
    /// ```
    pub fn cells(&self) -> &[u32] {
        self.table.cells()
    }

    /// How many arrays the plan has.
    ///
    /// ```
    /// let plan = lufodimi::Plan::of(&lufodimi::Table::new(2, 2, 10, [3, 4, 5, 6])?);
    /// assert_eq!(plan.array_count(), 4);
    /// # Ok::<(), lufodimi::Refusal>(())
    /// ```
    pub fn array_count(&self) -> u32 {
        self.array_count
    }

    /// An array with its weight. Arrays are counted from 1, as [`Table::reason`] counts them.
    ///
    /// ```
    /// use lufodimi::{Plan, Refusal, Table};
    ///
    /// let plan = Plan::of(&Table::new(2, 2, 10, [3, 4, 5, 6])?);
    /// let second = plan.array(2)?;
    /// assert_eq!((second.weight, second.counts), (1, vec![0, 0, 1, 1]));
    /// assert_eq!(plan.array(5), Err(Refusal::Array));
    /// # Ok::<(), Refusal>(())
    /// ```
    ///
    /// # Errors
    ///
    /// [`Refusal::Array`] if the number is 0 or above the number of arrays.
    pub fn array(&self, number: u32) -> Result<Array, Refusal> {
        let (mut weight, mut counts) = ([0], vec![0; self.cells().len()]);
        accepted(lufodimi_sys::array(
            &self.bytes,
            number,
            &mut weight,
            &mut counts,
        ))?;
        let [weight] = weight;
        Ok(Array { weight, counts })
    }

    /// The arrays with their weights, in order: the lowest draw numbers belong to the first.
    ///
    /// Each is read from the stored plan, which is checked anew, when the iterator comes to
    /// it. Where they are gone through more than once, `collect` them first.
    ///
    /// ```
    /// use lufodimi::{Plan, Table};
    ///
    /// let plan = Plan::of(&Table::new(2, 2, 10, [3, 4, 5, 6])?);
    /// let weights: Vec<u32> = plan.arrays().map(|array| array.weight).collect();
    /// assert_eq!(weights, [2, 1, 4, 3]);
    /// # Ok::<(), lufodimi::Refusal>(())
    /// ```
    pub fn arrays(&self) -> Arrays<'_> {
        Arrays::of(self)
    }

    /// The array that belongs to a draw number, counts in row order. Chances are those of
    /// the table only if the number is drawn evenly from 0 to the denominator minus 1.
    ///
    /// ```
    /// use lufodimi::{Plan, Refusal, Table};
    ///
    /// let plan = Plan::of(&Table::new(1, 1, 3, [2])?);
    /// assert_eq!([plan.draw(0)?, plan.draw(1)?, plan.draw(2)?], [[0], [1], [1]]);
    /// assert_eq!(plan.draw(3), Err(Refusal::Number));
    /// # Ok::<(), Refusal>(())
    /// ```
    ///
    /// # Errors
    ///
    /// [`Refusal::Number`] if the number is not below the denominator.
    pub fn draw(&self, number: u32) -> Result<Vec<u16>, Refusal> {
        let mut counts = vec![0; self.cells().len()];
        accepted(lufodimi_sys::draw(&self.bytes, number, &mut counts))?;
        Ok(counts)
    }

    /// The sum of all cell variances, and the smallest and the largest covariance of two
    /// different cells, as numerators over the squared denominator.
    ///
    /// ```
    /// use lufodimi::{Plan, Table};
    ///
    /// let variances = Plan::of(&Table::new(1, 1, 3, [2])?).variances();
    /// assert_eq!(variances.variance_sum, 2); // 2 over 9
    /// assert_eq!(variances.smallest_covariance, 0);
    /// assert_eq!(variances.largest_covariance, 0);
    /// # Ok::<(), lufodimi::Refusal>(())
    /// ```
    pub fn variances(&self) -> Variances {
        let mut numerators = [0; 3];
        // The plan opened and there is room for three numbers: that no refusal applies
        // then is proved of the library.
        accepted(lufodimi_sys::variances(&self.bytes, &mut numerators))
            .expect("a plan that opened has variances");
        let [variance_sum, smallest_covariance, largest_covariance] = numerators;
        Variances {
            variance_sum,
            smallest_covariance,
            largest_covariance,
        }
    }

    /// The covariances of the plan's cells, each two of them.
    ///
    /// ```
    /// use lufodimi::{Plan, Table};
    ///
    /// let plan = Plan::of(&Table::new(2, 2, 10, [3, 4, 5, 6])?);
    /// assert_eq!(plan.covariances().of(1, 3), Some(-24));
    /// # Ok::<(), lufodimi::Refusal>(())
    /// ```
    pub fn covariances(&self) -> Covariances<'_> {
        Covariances::read(self)
    }
}

/// The stored plan of a table.
fn planned(table: &Table) -> Result<Vec<u8>, Refusal> {
    let mut bytes = vec![0; LUFODIMI_LONGEST_PLAN];
    let answer = lufodimi_sys::plan(
        table.rows(),
        table.columns(),
        table.denominator(),
        table.cells(),
        &mut bytes,
    );
    if answer < SHORTEST_PLAN {
        return Err(Refusal::of(answer));
    }
    bytes.truncate(answer as usize);
    bytes.shrink_to_fit();
    Ok(bytes)
}
