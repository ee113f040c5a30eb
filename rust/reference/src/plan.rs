use crate::{encode, entries, first_rounding, Refusal, Table};

/// An array of a plan, with counts in row order.
#[derive(Clone, Debug, PartialEq, Eq)]
pub struct Array {
    pub weight: u64,
    pub counts: Vec<u64>,
}

/// A table with the arrays and weights that stand for it.
#[derive(Clone, Debug, PartialEq, Eq)]
pub struct Plan {
    pub table: Table,
    pub arrays: Vec<Array>,
}

impl Plan {
    /// A plan of these weights and counts, whether it opens or not.
    pub fn new<C: Into<Vec<u64>>>(
        table: Table,
        arrays: impl IntoIterator<Item = (u64, C)>,
    ) -> Plan {
        let array = |(weight, counts): (u64, C)| Array {
            weight,
            counts: counts.into(),
        };
        Plan {
            table,
            arrays: arrays.into_iter().map(array).collect(),
        }
    }

    /// The array that a draw number belongs to: the weights before it add up to at
    /// most the number, and with its own weight to more.
    pub fn array_of(&self, number: u64) -> &Array {
        let mut before = 0;
        for array in &self.arrays {
            if before <= number && number < before + array.weight {
                return array;
            }
            before += array.weight;
        }
        panic!("draw number {number} is not below the sum of the weights")
    }

    /// The array with this number, counted from 1.
    pub fn array(&self, number: u32) -> Result<&Array, Refusal> {
        let mut numbered = (1..).zip(&self.arrays);
        let found = numbered.find(|&(other, _)| other == number);
        found.map(|(_, array)| array).ok_or(Refusal::ArrayNumber)
    }
}

/// The plan call: writes the plan of the table in form 1 and returns its length.
pub fn plan(
    rows: u32,
    columns: u32,
    denominator: u32,
    cells: &[u32],
    buffer: &mut [u8],
) -> Result<u32, Refusal> {
    let table = Table::accept(rows, columns, denominator, cells)?;
    store(&plan_of(&table), buffer)
}

/// Writes a plan in form 1 at the start of a lent buffer and returns its length.
fn store(plan: &Plan, buffer: &mut [u8]) -> Result<u32, Refusal> {
    let bytes = encode(plan);
    if buffer.len() < bytes.len() {
        return Err(Refusal::ShortBuffer);
    }
    buffer[..bytes.len()].copy_from_slice(&bytes);
    Ok(bytes.len() as u32)
}

/// Ernst's algorithm, in multiples of 1 / denominator.
pub fn plan_of(table: &Table) -> Plan {
    let mut remaining = Remaining::of(table);
    let mut arrays = Vec::new();
    while remaining.weight > 0 {
        let array = remaining.next_array();
        remaining.lose(&array);
        arrays.push(array);
    }
    Plan {
        table: table.clone(),
        arrays,
    }
}

/// What remains before a round: the weight, and the table over it.
pub struct Remaining {
    rows: usize,
    columns: usize,
    pub weight: u64,
    cells: Vec<u64>,
}

impl Remaining {
    /// All of a table.
    pub fn of(table: &Table) -> Remaining {
        Remaining {
            rows: table.rows,
            columns: table.columns,
            weight: table.denominator,
            cells: table.cells.clone(),
        }
    }

    /// Takes a weighted array off.
    pub fn lose(&mut self, array: &Array) {
        for (cell, count) in self.cells.iter_mut().zip(&array.counts) {
            *cell -= array.weight * count;
        }
        self.weight -= array.weight;
    }

    /// The entries of what remains.
    pub fn entries(&self) -> Vec<u64> {
        entries(self.rows, self.columns, &self.cells)
    }

    /// The first controlled rounding of what remains, weighted by its smallest limit.
    fn next_array(&self) -> Array {
        let counts = first_rounding(self.rows, self.columns, self.weight, &self.cells);
        let weight = self.limits(&counts).into_iter().min();
        Array {
            weight: weight.expect("a table has entries"),
            counts,
        }
    }

    /// The limit of each entry under an array.
    pub fn limits(&self, counts: &[u64]) -> Vec<u64> {
        self.entries()
            .iter()
            .zip(&entries(self.rows, self.columns, counts))
            .map(|(&entry, &count)| limit(self.weight, entry, count))
            .collect()
    }
}

/// How far the weight of an array may go before the entry passes a whole number.
fn limit(weight: u64, entry: u64, count: u64) -> u64 {
    if count == entry / weight {
        (count + 1) * weight - entry
    } else {
        entry - (count - 1) * weight
    }
}

#[cfg(test)]
mod tests {
    use super::limit;
    use tables::literal::numbered;
    use tables::literal::plan::LIMITS;

    #[test]
    fn literal_limits() {
        for (number, row) in numbered(LIMITS) {
            let found = limit(row.weight, row.entry, row.count);
            assert_eq!(found, row.limit, "row {number}: {row:?}");
        }
    }
}
