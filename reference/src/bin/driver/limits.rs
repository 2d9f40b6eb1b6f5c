//! Lists of errors that lie exactly on the sample error limit, searched by integer arithmetic.

use crate::random::Random;
use reference::deciding::{root, sides};
use reference::tables::{Category, Kind, Plan};

/// Lists for the plans of category A with n = 3 to 12, 24 and 48. For n = 2 there is none: the
/// deviation of two errors is a whole number over the root of 2, so the limit is no fraction.
pub struct OnTheLimit {
    lists: Vec<(usize, Vec<i64>)>,
}

/// Lists that are kept for each plan.
const KEPT: usize = 12;

/// A lower end for the errors: labels near 950,000 have an MAV of 9,000 divisions or more.
const LOWEST: i64 = -7_900;

impl OnTheLimit {
    pub fn search(random: &mut Random) -> OnTheLimit {
        let mut lists = Vec::new();
        for size in [3, 4, 5, 6, 7, 8, 9, 10, 11, 12, 251, 3_201] {
            let plan = Category::A.plan(size, Kind::Are, 999_999).expect("A takes areas");
            // a total of −m has a place on the limit where m²(nf² + (n−1)10⁶) is a multiple of (nf)²
            let (n, f) = (plan.n as i128, plan.factor as i128);
            let squares = |m: i128| {
                let (top, bottom) = (m * m * (n * f * f + (n - 1) * 1_000_000), n * n * f * f);
                // a sum of numbers and a sum of their squares are both even or both odd
                (top % bottom == 0 && (top / bottom - m) % 2 == 0).then_some((m, top / bottom))
            };
            let totals: Vec<(i128, i128)> = (1..=n * 3_000).filter_map(squares).take(3).collect();
            for (m, squares) in totals.iter().cycle().take(KEPT) {
                if let Some(list) = with_sums(random, &plan, -m as i64, *squares as i64) {
                    lists.push((plan.n, list));
                }
            }
        }
        OnTheLimit { lists }
    }

    pub fn pick(&self, random: &mut Random, n: usize) -> Option<Vec<i64>> {
        let fitting: Vec<&Vec<i64>> =
            self.lists.iter().filter(|(size, _)| *size == n).map(|(_, list)| list).collect();
        if fitting.is_empty() {
            return None;
        }
        let mut list = fitting[random.below(fitting.len())].clone();
        random.shuffle(&mut list);
        Some(list)
    }
}

/// n errors with this sum and this sum of squares: all but three are drawn, the last three solved.
fn with_sums(random: &mut Random, plan: &Plan, total: i64, squares: i64) -> Option<Vec<i64>> {
    let n = plan.n as i64;
    let mean = total / n;
    let deviation = root(((squares - total * total / n) / (n - 1)) as i128).max(1);
    for _ in 0..3_000 {
        let mut list: Vec<i64> =
            (3..n).map(|_| mean + random.between(-deviation, deviation) * 3 / 2).collect();
        let sum = total - list.iter().sum::<i64>();
        let square = squares - list.iter().map(|e| e * e).sum::<i64>();
        for _ in 0..50 {
            let x = random.between(mean - 2 * deviation, mean + 2 * deviation);
            // y + z and y² + z² are given; their difference squared must be a square
            let (sum, square) = (sum - x, square - x * x);
            let difference = 2 * square - sum * sum;
            if difference < 0 {
                continue;
            }
            let side = root(difference as i128);
            if side * side != difference || (sum + side) % 2 != 0 {
                continue;
            }
            list.extend([x, (sum + side) / 2, (sum - side) / 2]);
            let (shortfall, limit) = sides(plan, total, squares);
            let inside = list.iter().all(|&e| (LOWEST..=8_000).contains(&e));
            if inside && shortfall == limit {
                return Some(list);
            }
            list.truncate(plan.n - 3);
        }
    }
    None
}
