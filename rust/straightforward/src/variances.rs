/// A stored plan, decoded. Its layout is taken to be right.
struct Plan {
    denominator: i64,
    cells: Vec<i64>,
    /// The weights of the arrays.
    weights: Vec<i64>,
    /// For each cell, its counts in the arrays.
    counts: Vec<Vec<i64>>,
}

/// The sum of all cell variances, and the smallest and the largest covariance of two
/// different cells, of a plan that opens: numerators over the squared denominator, pair
/// by pair.
pub fn variances(plan: &[u8]) -> [i64; 3] {
    let plan = Plan::decode(plan);
    let (mut sum, mut smallest, mut largest) = (0, i64::MAX, i64::MIN);
    for a in 0..plan.cells.len() {
        sum += plan.covariance(a, a);
        for b in 0..a {
            let covariance = plan.covariance(a, b);
            smallest = smallest.min(covariance);
            largest = largest.max(covariance);
        }
    }
    if plan.cells.len() == 1 {
        (smallest, largest) = (0, 0);
    }
    [sum, smallest, largest]
}

impl Plan {
    fn decode(bytes: &[u8]) -> Plan {
        let two = |at: usize| u16::from_le_bytes([bytes[at], bytes[at + 1]]);
        let four = |at: usize| i64::from(two(at)) | i64::from(two(at + 2)) << 16;
        let size = usize::from(bytes[2]) * usize::from(bytes[3]);
        let arrays = usize::from(two(4));
        let table = 16 + 8 * arrays;
        let body = |array: usize| table + 4 * size + 2 * size * array;
        let counts_of = |cell: usize| {
            (0..arrays)
                .map(|array| i64::from(two(body(array) + 2 * cell)))
                .collect()
        };
        Plan {
            denominator: four(8),
            cells: (0..size).map(|cell| four(table + 4 * cell)).collect(),
            weights: (0..arrays).map(|array| four(16 + 8 * array)).collect(),
            counts: (0..size).map(counts_of).collect(),
        }
    }

    /// The covariance of two cells: goes over all arrays.
    fn covariance(&self, a: usize, b: usize) -> i64 {
        let pairs = self.counts[a].iter().zip(&self.counts[b]);
        let sum: i64 = self
            .weights
            .iter()
            .zip(pairs)
            .map(|(weight, (one, other))| weight * one * other)
            .sum();
        self.denominator * sum - self.cells[a] * self.cells[b]
    }
}
