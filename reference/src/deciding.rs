//! A list of package errors, decided by the five rules of docs/RULES.md.

use crate::tables::{Mav, Plan};

/// A package of the sample: its error in divisions, and the MAV of its label.
#[derive(Clone, Copy, Debug)]
pub struct Package {
    pub error: i64,
    pub mav: Mav,
}

#[derive(Clone, Copy, Debug, PartialEq, Eq, PartialOrd, Ord)]
pub enum Verdict {
    Plan,
    Over,
    Within,
    Average,
    Mav,
}

pub const VERDICTS: [Verdict; 5] =
    [Verdict::Plan, Verdict::Over, Verdict::Within, Verdict::Average, Verdict::Mav];

impl Verdict {
    pub fn word(self) -> &'static str {
        match self {
            Verdict::Plan => "plan",
            Verdict::Over => "over",
            Verdict::Within => "within",
            Verdict::Average => "average",
            Verdict::Mav => "mav",
        }
    }

    pub fn passes(self) -> bool {
        matches!(self, Verdict::Plan | Verdict::Over | Verdict::Within)
    }
}

#[derive(Clone, Copy, Debug, PartialEq, Eq)]
pub struct Decision {
    /// S, the sum of the errors.
    pub total: i64,
    /// Q, the sum of their squares.
    pub squares: i64,
    pub short: usize,
    pub unreasonable: usize,
    /// K, what counts against the allowed number.
    pub counted: usize,
    /// In thousandths of a division, fraction dropped.
    pub deviation: i64,
    /// In thousandths of a division, fraction dropped.
    pub limit: i64,
    pub verdict: Verdict,
}

/// Whether a package is further below its label than its MAV.
pub fn unreasonable(package: &Package, division: i64) -> bool {
    -package.error * division * package.mav.denominator > package.mav.numerator
}

/// The two sides of rule 4, the shortfall and the limit, squared and freed of fractions.
pub fn sides(plan: &Plan, total: i64, squares: i64) -> (i128, i128) {
    let (n, f) = (plan.n as i128, plan.factor as i128);
    let (s, q) = (total as i128, squares as i128);
    (s * s * 1_000_000 * (n - 1), f * f * n * (n * q - s * s))
}

pub fn decide(plan: &Plan, division: i64, packages: &[Package]) -> Decision {
    let n = plan.n as i128;
    let total: i64 = packages.iter().map(|package| package.error).sum();
    let squares: i64 = packages.iter().map(|package| package.error * package.error).sum();
    let short = packages.iter().filter(|package| package.error < 0).count();
    let unreasonable = packages.iter().filter(|package| unreasonable(package, division)).count();
    let counted = if plan.counts_short { short } else { unreasonable };

    let (shortfall, limit) = sides(plan, total, squares);
    let verdict = if counted > plan.allowed {
        Verdict::Mav
    } else if !plan.average {
        Verdict::Plan
    } else if total >= 0 {
        Verdict::Over
    } else if shortfall > limit {
        Verdict::Average
    } else {
        Verdict::Within
    };

    let deviation = if plan.average {
        let spread = n * squares as i128 - total as i128 * total as i128;
        // v² × n(n − 1) ≤ 10⁶ × spread exactly where v² ≤ the quotient with its fraction dropped
        root(1_000_000 * spread / (n * (n - 1)))
    } else {
        0
    };
    Decision {
        total,
        squares,
        short,
        unreasonable,
        counted,
        deviation,
        limit: deviation * plan.factor / 1_000,
        verdict,
    }
}

/// The largest whole number whose square is at most `x`, found bit by bit.
pub fn root(x: i128) -> i64 {
    let mut found: i128 = 0;
    for bit in (0..62).rev() {
        let tried = found | 1 << bit;
        if tried * tried <= x {
            found = tried;
        }
    }
    found as i64
}

#[cfg(test)]
mod tests {
    use super::*;
    use crate::tables::{Category, Kind};

    fn verdict(size: i64, kind: Kind, division: i64, label: i64, errors: &[i64]) -> Decision {
        let plan = Category::A.plan(size, kind, label * division).unwrap();
        let mav = kind.mav(label * division);
        let packages: Vec<Package> = errors.iter().map(|&error| Package { error, mav }).collect();
        decide(&plan, division, &packages)
    }

    #[test]
    fn a_heavier_package_can_harm() {
        let mut errors = [-1; 12];
        errors[11] = -40;
        let first = verdict(250, Kind::Mus, 10, 1000, &errors);
        assert_eq!((first.total, first.deviation, first.limit), (-51, 11258, 7148));
        assert_eq!(first.verdict, Verdict::Within);
        let second = verdict(250, Kind::Mus, 10, 1000, &[-1; 12]);
        assert_eq!(second.verdict, Verdict::Average);
    }

    #[test]
    fn exactly_on_the_limit_is_within() {
        let on = verdict(3, Kind::Are, 1, 999_999, &[-871, -371, -621]);
        assert_eq!((on.deviation, on.limit, on.verdict), (250_000, 621_000, Verdict::Within));
        let off = verdict(3, Kind::Are, 1, 999_999, &[-871, -371, -622]);
        assert_eq!(off.verdict, Verdict::Average);
    }

    #[test]
    fn roots_drop_the_fraction() {
        for x in 0..1_000 {
            let root = root(x) as i128;
            assert!(root * root <= x && x < (root + 1) * (root + 1));
        }
    }
}
