//! A sheet as it is meant to be when it closes: lot, labels, errors aimed at, tares, and the
//! gross weights that give these errors.

use crate::limits::OnTheLimit;
use crate::random::Random;
use reference::sheet::{moisture, plan_for, range, Lot};
use reference::tables::{nearest, Category, Kind, Plan};

#[derive(Clone)]
pub struct Draft {
    pub category: Category,
    pub kind: Kind,
    pub lot: Lot,
    pub plan: Plan,
    /// One for each package, in divisions.
    pub labels: Vec<i64>,
    pub errors: Vec<i64>,
    pub tares: Vec<i64>,
    pub grosses: Vec<i64>,
}

/// Lot sizes at the ends of the rows of the plans, and just past them.
pub const SIZES: [i64; 19] =
    [1, 2, 3, 4, 5, 6, 7, 8, 9, 10, 11, 12, 249, 250, 251, 3_199, 3_200, 3_201, 1_000_000];

/// What the errors are aimed at.
#[derive(Clone, Copy, PartialEq)]
enum Aim {
    Anything,
    /// Packages at their MAV, and as many past it as are allowed, or one more.
    Mavs,
    OnTheLimit,
    Zero,
    /// As many short packages as are allowed, or one more.
    Shorts,
    Ends,
    /// A ratio at, below or above the end of a row of the totals.
    Ratio,
}

const AIMS: [Aim; 10] = [
    Aim::Anything,
    Aim::Anything,
    Aim::Mavs,
    Aim::Mavs,
    Aim::OnTheLimit,
    Aim::Zero,
    Aim::Shorts,
    Aim::Ends,
    Aim::Ratio,
    Aim::Ratio,
];

impl Draft {
    pub fn new(random: &mut Random, on_the_limit: &OnTheLimit) -> Draft {
        loop {
            let aim = random.pick(&AIMS);
            let (category, kind) = category_and_kind(random, aim);
            let lot = lot(random, category, kind, aim);
            // an edge may belong to another category, or may lie outside the range
            let Ok(plan) = plan_for(category, kind, &lot) else { continue };
            // with an allowance, labels far apart would leave the ratio aimed at
            let alike = aim == Aim::Ratio && lot.allowance > 0;
            let own_label = |_| match lot.label {
                Some(label) => label,
                None if alike => random.between(5_000, 5_500),
                None => label(random, kind, lot.division),
            };
            let labels = (0..plan.n).map(own_label).collect();
            let errors = vec![0; plan.n];
            let (tares, grosses) = (errors.clone(), errors.clone());
            let mut draft = Draft { category, kind, lot, plan, labels, errors, tares, grosses };
            draft.aim(random, aim, on_the_limit);
            draft.fit();
            return draft;
        }
    }

    /// The last error, in divisions, that is not unreasonable, and whether it is exactly the MAV.
    pub fn last_reasonable(&self, at: usize) -> (i64, bool) {
        let mav = self.kind.mav(self.labels[at] * self.lot.division);
        let step = self.lot.division * mav.denominator;
        (-(mav.numerator / step), mav.numerator % step == 0)
    }

    fn aim(&mut self, random: &mut Random, aim: Aim, on_the_limit: &OnTheLimit) {
        self.draw_tares(random);
        self.draw_errors(random);
        match aim {
            Aim::Anything => {}
            Aim::Mavs => self.aim_at_mavs(random),
            Aim::OnTheLimit => {
                if let Some(list) = on_the_limit.pick(random, self.plan.n) {
                    self.errors = list;
                    if random.once_in(2) {
                        let at = random.below(self.plan.n);
                        self.errors[at] += random.pick(&[-1, 1]);
                    }
                }
            }
            Aim::Zero => {
                let aimed: i64 = random.pick(&[-2, -1, -1, 0, 0, 1]);
                let off = aimed - self.errors.iter().sum::<i64>();
                let n = self.plan.n as i64;
                for (at, error) in self.errors.iter_mut().enumerate() {
                    *error += off.div_euclid(n) + i64::from((at as i64) < off.rem_euclid(n));
                }
            }
            Aim::Shorts => {
                let shorts = self.plan.allowed + random.below(2);
                let deepest = random.pick(&[-1, -1, -2, -9]);
                for (at, error) in self.errors.iter_mut().enumerate() {
                    let low = random.between(deepest, -1);
                    *error = if at < shorts { low } else { error.abs() };
                }
                random.shuffle(&mut self.errors);
            }
            Aim::Ends => {
                for _ in 0..random.between(1, 3) {
                    let at = random.below(self.plan.n);
                    self.errors[at] = random.pick(&[-8_000, 8_000, -8_001, 8_001, -7_999, 8_000]);
                }
            }
            Aim::Ratio => self.aim_at_ratio(random),
        }
    }

    pub fn draw_tares(&mut self, random: &mut Random) {
        let low = random.pick(&[0, 1, 5, 20, 60, 300]);
        let spread = random.pick(&[0, 0, 1, 1, 2, 5, 30]);
        for tare in &mut self.tares {
            *tare = random.between(low, low + spread);
        }
    }

    fn draw_errors(&mut self, random: &mut Random) {
        let spread = random.pick(&[0, 1, 2, 5, 20, 100, 400]);
        let middle = random.pick(&[0, 0, 1, -1, -1, -2]) * (spread / random.between(2, 8) + 1);
        let any = random.once_in(6);
        for at in 0..self.plan.n {
            // most labels allow only a little, and a lot that is all unreasonable shows nothing
            let lowest = if any { -8_000 } else { self.last_reasonable(at).0 };
            let drawn = middle + random.between(-spread, spread);
            self.errors[at] = drawn.max(lowest);
        }
    }

    fn aim_at_mavs(&mut self, random: &mut Random) {
        let past = match self.plan.counts_short {
            true => random.below(3),
            false => (self.plan.allowed + random.below(2)).min(self.plan.n),
        };
        let mut places: Vec<usize> = (0..self.plan.n).collect();
        random.shuffle(&mut places);
        for (order, &at) in places.iter().enumerate() {
            let lowest = self.last_reasonable(at).0;
            if order < past {
                self.errors[at] = lowest - 1;
            } else if random.once_in(3) {
                self.errors[at] = lowest + random.between(0, 1);
            } else {
                // most of the others are above the label, so that the average does not decide alone
                self.errors[at] = self.errors[at].abs() + random.between(0, -lowest / 4 + 1);
            }
        }
    }

    /// Tares and errors of the first packages so that 100 × Rc ÷ Rt is as aimed.
    fn aim_at_ratio(&mut self, random: &mut Random) {
        let ends = self.plan.ratio_ends();
        if ends.is_empty() {
            return;
        }
        let aimed = (random.pick(&ends) + random.between(-1, 1)).max(0);
        let widths: Vec<i64> = [10, 20, 50, 100, 200, random.between(1, 300)]
            .into_iter()
            .filter(|width| aimed * width % 100 == 0 || *width >= 100)
            .collect();
        let rt = random.pick(&widths);
        let smallest = (aimed * rt + 99) / 100;
        let largest = (((aimed + 1) * rt + 99) / 100 - 1).max(smallest);
        let rc = random.pick(&[smallest, largest]);

        let low = self.tares[0];
        let base = random.between(-3, 10);
        let i = self.plan.initial;
        for at in 0..i {
            // the first two places have the ends of both ranges, the others lie between
            let (tare, content) = match at {
                0 => (low + rt, rc),
                1 => (low, 0),
                _ => (random.between(low, low + rt), random.between(0, rc)),
            };
            let content = if random.once_in(9) && at >= 2 { rc } else { content };
            self.tares[at] = tare;
            self.errors[at] = base + content + tare - low + self.dried(at) - self.dried(1);
        }
        if random.once_in(2) {
            // the larger content under the smaller tare: the ranges stay
            let step = self.tares[0] - self.tares[1];
            self.tares.swap(0, 1);
            self.errors[0] -= step;
            self.errors[1] += step;
        }
    }

    fn dried(&self, at: usize) -> i64 {
        moisture(self.labels[at], self.lot.allowance)
    }

    /// From how many packages the tare will be found, and its average.
    fn tare(&self) -> (usize, i64) {
        let initial = if self.kind.weighed() { self.plan.initial } else { 0 };
        // the average tare stands in every gross weight, so it does not change their range
        let content = |at: usize| self.errors[at] - self.dried(at) - self.tares[at];
        let rt = range(self.tares[..initial].iter().copied());
        let rc = range((0..initial).map(content));
        let total = if rt == 0 { initial } else { self.plan.total(100 * rc / rt) };
        let sum: i64 = self.tares[..total].iter().sum();
        (total, if total == 0 { 0 } else { nearest(sum, total as i64) })
    }

    /// The gross weights that give the errors. One that cannot be typed is moved into range.
    pub fn fit(&mut self) {
        let (_, average) = self.tare();
        for at in 0..self.plan.n {
            let gross = self.errors[at] + self.labels[at] + average - self.dried(at);
            self.grosses[at] = gross.clamp(0, 1_000_000);
        }
    }
}

fn category_and_kind(random: &mut Random, aim: Aim) -> (Category, Kind) {
    let weighed = random.pick(&[Kind::Msi, Kind::Mus]);
    match aim {
        Aim::Ratio => (random.pick(&[Category::A, Category::A, Category::A, Category::B]), weighed),
        Aim::OnTheLimit => {
            (Category::A, random.pick(&[Kind::Are, Kind::Len, Kind::Lsi, Kind::Cnt, weighed]))
        }
        _ => match random.below(10) {
            0 => (Category::C, Kind::Cnt),
            1 | 2 => (Category::B, weighed),
            3 => (Category::A, Kind::Lsi),
            4 => (Category::A, Kind::Cnt),
            5 => (Category::A, Kind::Len),
            6 => (Category::A, Kind::Are),
            _ => (Category::A, weighed),
        },
    }
}

fn lot(random: &mut Random, category: Category, kind: Kind, aim: Aim) -> Lot {
    let size = match aim {
        // the plans that have a table of totals
        Aim::Ratio if category == Category::B => random.pick(&[10, 250, 251, 1_000_000]),
        Aim::Ratio => random.pick(&[12, 250, 251, 3_200, 3_201, 1_000_000]),
        _ if random.once_in(4) => random.between(1, 4_000),
        _ => random.pick(&SIZES),
    };
    let allowance = match random.below(4) {
        0 if kind.weighed() => random.pick(&[1, 25, 30, 99, 100]),
        1 if kind.weighed() => random.between(0, 100),
        _ => 0,
    };
    if aim == Aim::OnTheLimit {
        let division = random.pick(if kind == Kind::Cnt { &[1] } else { &[100, 500, 1_000] });
        let label = Some(random.between(940_000, 970_000));
        return Lot { size, division, label, allowance: 0 };
    }
    let (division, label_in_divisions) = labeled(random, category, kind);
    let wide = aim == Aim::Ends || (aim == Aim::Ratio && random.once_in(4));
    let label = match kind {
        _ if kind.weighed() && random.once_in(3) => None,
        Kind::Msi | Kind::Mus | Kind::Lsi | Kind::Len | Kind::Are if wide => {
            Some(random.between(9_000, 900_000))
        }
        _ => Some(label_in_divisions),
    };
    Lot { size, division, label, allowance }
}

/// A division and a label: at or next to the end of a row of the MAVs, or anywhere.
fn labeled(random: &mut Random, category: Category, kind: Kind) -> (i64, i64) {
    if kind == Kind::Cnt {
        return (
            1,
            if category == Category::C { random.between(1, 51) } else { label(random, kind, 1) },
        );
    }
    let ends = kind.row_ends();
    if ends.is_empty() || random.once_in(6) {
        let division = random.pick(&[1, 2, 5, 7, 10, 100, 1_000, 4_536, 100_000]);
        return (division, label(random, kind, division));
    }
    let end = random.pick(&ends) + random.between(-1, 2).min(1);
    let divisions = divisions(end);
    if divisions.is_empty() {
        // no scale has this label: the next one of a wider scale
        let division = random.pick(&[50, 100, 1_000]);
        return (division, end / division + 1);
    }
    let division = random.pick(&divisions);
    (division, end / division)
}

/// The divisions in which a label of so many base units can be given.
pub fn divisions(label: i64) -> Vec<i64> {
    let divisors = (1..).take_while(|d| d * d <= label).filter(|d| label % d == 0);
    divisors
        .flat_map(|d| [d, label / d])
        .filter(|d| *d <= 100_000 && label / d <= 999_999)
        .collect()
}

/// A label for a given division: at, next to or off the end of a row.
fn label(random: &mut Random, kind: Kind, division: i64) -> i64 {
    let ends = kind.row_ends();
    let label = match random.below(8) {
        0 => random.pick(&[1, 2, 9, 999_999, 999_998]),
        1 => random.between(1, 999_999),
        2 => random.between(1, 2_000),
        // 1.5 % of these is a whole number and a half
        3 | 4 if kind == Kind::Cnt => 1_500 + 200 * random.between(0, 300),
        _ if ends.is_empty() => random.between(100, 50_000),
        _ => random.pick(&ends) / division + random.between(-1, 1),
    };
    label.clamp(1, 999_999)
}
