//! What was reached: verdicts, refusals, categories and kinds, and the edges of every table.

use reference::deciding::{sides, unreasonable, Package, VERDICTS};
use reference::sheet::Record;
use reference::tables::{Category, Kind, CATEGORIES, KINDS};
use std::collections::{BTreeMap, BTreeSet};

use crate::draft::{divisions, SIZES};

#[derive(Default)]
pub struct Tally {
    pub bytes: usize,
    open: usize,
    verdicts: BTreeMap<&'static str, usize>,
    /// Texts with a refusal of this number, and refusals.
    refusals: BTreeMap<u32, (usize, usize)>,
    sheets: BTreeMap<(Category, Kind, bool), usize>,
    edges: BTreeMap<&'static str, usize>,
    sizes: BTreeSet<(Category, i64)>,
    labels: BTreeSet<(Kind, i64)>,
    ratios: BTreeSet<(Category, usize, i64)>,
}

impl Tally {
    pub fn count(&mut self, text: &[u8], transcript: &[u8], record: Option<&Record>) {
        self.bytes += text.len();
        let mut numbers = BTreeMap::new();
        for line in transcript.split(|&byte| byte == b'\n') {
            let words: Vec<&[u8]> = line.split(|&byte| byte == b' ').collect();
            if let [_, _, _, number] = words[..] {
                let number = String::from_utf8_lossy(number).parse().unwrap_or(0);
                *numbers.entry(number).or_insert(0) += 1;
            }
        }
        for (number, times) in numbers {
            let (texts, refusals) = self.refusals.entry(number).or_default();
            *texts += 1;
            *refusals += times;
        }
        match record {
            None => self.open += 1,
            Some(record) => self.count_record(record),
        }
    }

    fn count_record(&mut self, record: &Record) {
        let (plan, decision) = (&record.plan, &record.decision);
        let (category, kind, lot) = (record.category, record.kind, &record.lot);
        *self.verdicts.entry(decision.verdict.word()).or_default() += 1;
        *self.sheets.entry((category, kind, lot.label.is_none())).or_default() += 1;
        self.sizes.insert((category, lot.size));
        self.labels.extend(record.labels.iter().map(|label| (kind, label * lot.division)));
        self.ratios.extend(record.tare.ratio.map(|ratio| (category, plan.n, ratio)));

        let on_the_limit = |total: i64, squares: i64| {
            let (shortfall, limit) = sides(plan, total, squares);
            plan.average && plan.factor > 0 && total < 0 && shortfall == limit
        };
        let (total, squares) = (decision.total, decision.squares);
        let errors: Vec<i64> = record.packages.iter().map(|package| package.error).collect();
        // e + d in the place of e
        let moved = |e: i64, d: i64| on_the_limit(total + d, squares + 2 * e * d + 1);
        let one_off = errors.iter().any(|&e| moved(e, 1) || moved(e, -1));
        let exactly = |package: &Package, off: i64| {
            let step = lot.division * package.mav.denominator;
            -(package.error + off) * step == package.mav.numerator && package.mav.numerator > 0
        };
        let any = |off: i64| record.packages.iter().any(|package| exactly(package, off));
        let past = |package: &Package| {
            let above = Package { error: package.error + 1, ..*package };
            unreasonable(package, lot.division) && !unreasonable(&above, lot.division)
        };
        let half = |label: &i64| kind == Kind::Cnt && *label > 1_333 && label * 15 % 1_000 == 500;
        let reached = [
            ("a count whose 1.5 % has a half", record.labels.iter().any(half)),
            ("on the sample error limit", on_the_limit(total, squares)),
            ("one division off the limit", one_off),
            ("S = 0", total == 0),
            ("S = -1", total == -1),
            ("K = c", decision.counted == plan.allowed),
            ("K = c + 1", decision.counted == plan.allowed + 1),
            ("a package exactly at its MAV", any(0)),
            ("a package one division above it", any(-1)),
            ("a package one division past it", any(1)),
            ("a package first past its MAV", record.packages.iter().any(past)),
            ("an error of -8000", errors.contains(&-8_000)),
            ("an error of 8000", errors.contains(&8_000)),
            ("an allowance", lot.allowance > 0),
            ("the largest allowance", lot.allowance == 100),
            ("a tare of more packages than i", record.tare.total > plan.initial),
            ("a tare from the whole sample", record.tare.total == plan.n),
        ];
        for (name, reached) in reached {
            *self.edges.entry(name).or_default() += usize::from(reached);
        }
    }

    pub fn print(&self) {
        println!("verdict         texts");
        for verdict in VERDICTS {
            let count = self.verdicts.get(verdict.word()).unwrap_or(&0);
            println!("  {:<12}{count:>7}", verdict.word());
        }
        println!("  {:<12}{:>7}", "none", self.open);
        println!("refusal         texts      lines");
        for number in (1..=9).chain(11..=17).chain(19..=22) {
            let (texts, refusals) = self.refusals.get(&number).unwrap_or(&(0, 0));
            println!("  {number:<12}{texts:>7}{refusals:>11}");
        }
        println!("closed       standard     random");
        for category in CATEGORIES {
            for kind in KINDS {
                let count = |random| self.sheets.get(&(category, kind, random)).unwrap_or(&0);
                let (standard, random) = (count(false), count(true));
                if standard + random > 0 {
                    println!("  {} {:<8}{standard:>9}{random:>11}", category.letter(), kind.word());
                }
            }
        }
        println!("closed with                           texts");
        for (name, count) in &self.edges {
            println!("  {name:<34}{count:>7}");
        }
        println!("edges of the tables                 reached       of");
        self.print_edges();
    }

    fn print_edges(&self) {
        let print = |name: &str, reached: Vec<bool>| {
            let count = reached.iter().filter(|reached| **reached).count();
            println!("  {name:<34}{count:>7}{:>9}", reached.len());
        };
        let sizes = |category: Category| {
            let least = if category == Category::B { 10 } else { 1 };
            SIZES
                .iter()
                .filter(|&&size| size >= least)
                .map(|&size| (category, size))
                .collect::<Vec<_>>()
        };
        let sizes: Vec<_> = CATEGORIES.into_iter().flat_map(sizes).collect();
        print("lot sizes", sizes.iter().map(|size| self.sizes.contains(size)).collect());
        for (name, off) in [("MAV rows, the last label", 0), ("MAV rows, the first label past", 1)]
        {
            let ends = |kind: Kind| kind.row_ends().into_iter().map(move |end| (kind, end + off));
            let given = |&(_, label): &(Kind, i64)| !divisions(label).is_empty();
            let labels = KINDS.into_iter().flat_map(ends).filter(given);
            print(name, labels.map(|label| self.labels.contains(&label)).collect());
        }
        for (name, off) in [
            ("tare rows, 0.01 below the end", -1),
            ("tare rows, the end", 0),
            ("tare rows, 0.01 past the end", 1),
        ] {
            let mut reached = Vec::new();
            for (category, size) in [
                (Category::A, 12),
                (Category::A, 251),
                (Category::A, 3_201),
                (Category::B, 10),
                (Category::B, 251),
            ] {
                let plan = category.plan(size, Kind::Mus, 500).expect("taken");
                let ratios =
                    plan.ratio_ends().into_iter().map(|end| end + off).filter(|ratio| *ratio >= 0);
                reached
                    .extend(ratios.map(|ratio| self.ratios.contains(&(category, plan.n, ratio))));
            }
            print(name, reached);
        }
    }
}
