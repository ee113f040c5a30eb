//! Maximum flow by the preflow-push method, and circulations with lower bounds.

/// An edge of a network with the least and the most that it may carry. An amount below 0
/// goes the other way.
#[derive(Clone, Debug)]
pub struct Edge {
    pub from: usize,
    pub to: usize,
    pub least: i64,
    pub most: i64,
}

/// Whether whole amounts exist that keep every edge within its bounds and let as
/// much enter each node as leaves it.
///
/// Each edge first carries its least amount. What then enters a node in excess comes
/// from a new source, what it gives away in excess goes to a new sink; the amounts
/// exist exactly if a flow within the rest of the bounds fills every edge of the source.
/// What is left of an edge's bounds, and so every capacity, is 0 or more.
pub fn circulation_exists(nodes: usize, edges: &[Edge]) -> bool {
    let (source, sink) = (nodes, nodes + 1);
    let mut capacities = vec![vec![0; nodes + 2]; nodes + 2];
    let mut in_excess = vec![0; nodes];
    for edge in edges {
        let left = u64::try_from(edge.most - edge.least);
        capacities[edge.from][edge.to] += left.expect("the least is not above the most");
        in_excess[edge.to] += edge.least;
        in_excess[edge.from] -= edge.least;
    }
    let mut demand = 0;
    for (node, excess) in in_excess.into_iter().enumerate() {
        capacities[source][node] = excess.max(0).unsigned_abs();
        capacities[node][sink] = excess.min(0).unsigned_abs();
        demand += capacities[source][node];
    }
    maximum_flow(capacities, source, sink) == demand
}

/// The largest amount that can go from source to sink within the capacities.
pub fn maximum_flow(capacities: Vec<Vec<u64>>, source: usize, sink: usize) -> u64 {
    let nodes = capacities.len();
    let mut preflow = Preflow {
        residual: capacities,
        excess: vec![0; nodes],
        height: vec![0; nodes],
    };
    preflow.height[source] = nodes;
    preflow.excess[source] = preflow.residual[source].iter().sum();
    for node in 0..nodes {
        preflow.push(source, node);
    }
    let inner: Vec<usize> = (0..nodes)
        .filter(|&node| node != source && node != sink)
        .collect();
    while inner.iter().any(|&node| preflow.excess[node] > 0) {
        for &node in &inner {
            preflow.discharge(node);
        }
    }
    preflow.excess[sink]
}

/// Amounts that may enter a node without leaving it yet.
struct Preflow {
    /// How much more may go from one node to another.
    residual: Vec<Vec<u64>>,
    /// What has entered a node and not left it.
    excess: Vec<u64>,
    /// Amounts go from a node to one that is lower by 1.
    height: Vec<usize>,
}

impl Preflow {
    fn push(&mut self, from: usize, to: usize) {
        let amount = self.excess[from].min(self.residual[from][to]);
        self.residual[from][to] -= amount;
        self.residual[to][from] += amount;
        self.excess[from] -= amount;
        self.excess[to] += amount;
    }

    /// Pushes and lifts until nothing is left at the node.
    fn discharge(&mut self, node: usize) {
        while self.excess[node] > 0 {
            for to in 0..self.height.len() {
                if self.height[node] == self.height[to] + 1 {
                    self.push(node, to);
                }
            }
            if self.excess[node] > 0 {
                self.lift(node);
            }
        }
    }

    /// Puts the node just above the lowest node that it can still push to.
    fn lift(&mut self, node: usize) {
        let lowest = (0..self.height.len())
            .filter(|&to| self.residual[node][to] > 0)
            .map(|to| self.height[to])
            .min()
            .expect("what entered a node can go back");
        self.height[node] = lowest + 1;
    }
}

#[cfg(test)]
mod tests {
    use super::*;
    use tables::Generator;

    /// The smallest capacity of a cut, over all cuts.
    fn smallest_cut(capacities: &[Vec<u64>], source: usize, sink: usize) -> u64 {
        let nodes = capacities.len();
        let contains = |set: usize, node: usize| set >> node & 1 == 1;
        let cut = |set: usize| -> u64 {
            (0..nodes * nodes)
                .map(|pair| (pair / nodes, pair % nodes))
                .filter(|&(from, to)| contains(set, from) && !contains(set, to))
                .map(|(from, to)| capacities[from][to])
                .sum()
        };
        (0..1 << nodes)
            .filter(|&set| contains(set, source) && !contains(set, sink))
            .map(cut)
            .min()
            .expect("there is a cut")
    }

    #[test]
    fn maximum_flow_is_the_smallest_cut() {
        let mut generator = Generator::new(11);
        for _ in 0..2000 {
            let nodes = generator.between(2, 6) as usize;
            let mut capacities = vec![vec![0; nodes]; nodes];
            for (from, row) in capacities.iter_mut().enumerate() {
                for to in (0..nodes).filter(|&to| to != from) {
                    row[to] = generator.below(5) * generator.below(2);
                }
            }
            let expected = smallest_cut(&capacities, 0, nodes - 1);
            assert_eq!(maximum_flow(capacities, 0, nodes - 1), expected);
        }
    }

    #[test]
    fn a_circulation_needs_room_for_every_least_amount() {
        let edge = |from, to, least, most| Edge {
            from,
            to,
            least,
            most,
        };
        let ring = [edge(0, 1, 2, 5), edge(1, 2, 0, 3), edge(2, 0, 1, 9)];
        assert!(circulation_exists(3, &ring));
        let narrow = [edge(0, 1, 4, 5), edge(1, 2, 0, 3), edge(2, 0, 1, 9)];
        assert!(!circulation_exists(3, &narrow));
        let wide = [edge(0, 1, 2, 5), edge(1, 2, 0, 3), edge(2, 0, 6, 9)];
        assert!(!circulation_exists(3, &wide));
        let back = [edge(0, 1, -5, -2), edge(1, 2, -3, 0), edge(2, 0, -9, -3)];
        assert!(circulation_exists(3, &back));
        let apart = [edge(0, 1, -5, -2), edge(1, 2, -1, 0), edge(2, 0, -9, 9)];
        assert!(!circulation_exists(3, &apart));
    }

    /// Whether some amounts within the bounds of these edges balance every node, where
    /// the edges before them left so much in excess.
    fn amounts_exist(in_excess: &mut [i64], edges: &[Edge]) -> bool {
        let Some((edge, others)) = edges.split_first() else {
            return in_excess.iter().all(|&excess| excess == 0);
        };
        (edge.least..=edge.most).any(|amount| {
            in_excess[edge.to] += amount;
            in_excess[edge.from] -= amount;
            let exist = amounts_exist(in_excess, others);
            in_excess[edge.to] -= amount;
            in_excess[edge.from] += amount;
            exist
        })
    }

    #[test]
    fn a_circulation_exists_just_if_some_amounts_balance_every_node() {
        let mut generator = Generator::new(12);
        let mut found = [0; 2];
        for _ in 0..2000 {
            let nodes = generator.between(2, 4);
            let edges: Vec<Edge> = (0..generator.between(1, 6))
                .map(|_| {
                    let least = generator.below(7) as i64 - 4;
                    Edge {
                        from: generator.below(nodes) as usize,
                        to: generator.below(nodes) as usize,
                        least,
                        most: least + generator.below(3) as i64,
                    }
                })
                .collect();
            let expected = amounts_exist(&mut vec![0; nodes as usize], &edges);
            let exists = circulation_exists(nodes as usize, &edges);
            assert_eq!(exists, expected, "{edges:?}");
            found[usize::from(exists)] += 1;
        }
        assert!(found.iter().all(|&times| times > 200), "{found:?}");
    }
}
