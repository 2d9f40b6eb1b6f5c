//! The lot sheet and its calls, after docs/CALLS.md.
//! A refusal is the number of the first question that a call fails; it changes nothing.

use crate::deciding::{decide, Decision, Package};
use crate::tables::{nearest, Category, Kind, Plan};

#[derive(Clone, Copy, Debug)]
pub struct Lot {
    pub size: i64,
    /// Base units in one step of the scale.
    pub division: i64,
    /// In divisions; none on a random sheet.
    pub label: Option<i64>,
    /// In tenths of a percent of the label.
    pub allowance: i64,
}

/// A place that is not empty. It is opened where it has a tare.
#[derive(Clone, Copy, Debug, PartialEq, Eq)]
pub struct Weighed {
    pub gross: i64,
    /// On a random sheet only.
    pub label: Option<i64>,
    pub tare: Option<i64>,
}

/// What settling found.
#[derive(Clone, Copy, Debug, PartialEq, Eq)]
pub struct Tare {
    /// T, from how many packages.
    pub total: usize,
    pub average: i64,
    /// The ratio by which T was read from the totals, where it was.
    pub ratio: Option<i64>,
}

#[derive(Clone, Debug)]
pub struct Sheet {
    pub category: Category,
    pub kind: Kind,
    pub lot: Lot,
    pub plan: Plan,
    /// One place for each package of the sample.
    pub places: Vec<Option<Weighed>>,
    pub settled: Option<Tare>,
}

/// A closed sheet.
#[derive(Clone, Debug)]
pub struct Record {
    pub category: Category,
    pub kind: Kind,
    pub lot: Lot,
    pub plan: Plan,
    pub tare: Tare,
    pub labels: Vec<i64>,
    pub packages: Vec<Package>,
    pub decision: Decision,
}

pub type Answer = Result<(), u8>;

const LARGEST: i64 = 999_999;

fn label_in_range(label: i64) -> bool {
    (1..=LARGEST).contains(&label)
}

/// The plan of a lot that is inspected, or 8 or 9.
pub fn plan_for(category: Category, kind: Kind, lot: &Lot) -> Result<Plan, u8> {
    let in_range = (1..=1_000_000).contains(&lot.size)
        && (1..=100_000).contains(&lot.division)
        && lot.label.is_none_or(label_in_range)
        && (0..=100).contains(&lot.allowance);
    if !in_range {
        return Err(8);
    }
    if (lot.label.is_none() || lot.allowance > 0) && !kind.weighed() {
        return Err(9);
    }
    if kind == Kind::Cnt && lot.division != 1 {
        return Err(9);
    }
    let label = lot.label.map_or(0, |label| label * lot.division);
    category.plan(lot.size, kind, label).ok_or(9)
}

/// The part of a label by which a package may have dried.
pub fn moisture(label: i64, allowance: i64) -> i64 {
    label * allowance / 1_000
}

/// The largest less the smallest, 0 of nothing.
pub fn range(amounts: impl Iterator<Item = i64> + Clone) -> i64 {
    amounts.clone().max().unwrap_or(0) - amounts.min().unwrap_or(0)
}

impl Sheet {
    pub fn start(category: Category, kind: Kind, lot: Lot) -> Result<Sheet, u8> {
        let plan = plan_for(category, kind, &lot)?;
        Ok(Sheet { category, kind, lot, plan, places: vec![None; plan.n], settled: None })
    }

    pub fn weigh(&mut self, place: i64, gross: i64, label: Option<i64>) -> Answer {
        let at = self.in_sample(place)?;
        self.readable(gross, label)?;
        self.not_frozen(at)?;
        if self.places[at].is_some() {
            return Err(14);
        }
        self.places[at] = Some(Weighed { gross, label, tare: None });
        Ok(())
    }

    pub fn correct(&mut self, place: i64, gross: i64, label: Option<i64>) -> Answer {
        let at = self.in_sample(place)?;
        self.readable(gross, label)?;
        self.not_frozen(at)?;
        self.places[at].ok_or(14)?;
        self.places[at] = Some(Weighed { gross, label, tare: None });
        Ok(())
    }

    pub fn strike(&mut self, place: i64) -> Answer {
        let at = self.in_sample(place)?;
        self.not_frozen(at)?;
        self.places[at].ok_or(14)?;
        self.places[at] = None;
        Ok(())
    }

    pub fn open(&mut self, place: i64, tare: i64) -> Answer {
        let at = self.in_sample(place)?;
        self.not_frozen(at)?;
        let weighed = self.places[at].ok_or(14)?;
        if tare > weighed.gross {
            return Err(15);
        }
        self.places[at] = Some(Weighed { tare: Some(tare), ..weighed });
        Ok(())
    }

    pub fn settle(&mut self) -> Answer {
        if self.settled.is_some() {
            return Err(16);
        }
        let initial = if self.kind.weighed() { self.plan.initial } else { 0 };
        let first = self.opened(initial).ok_or(17)?;
        let tares = range(first.iter().map(|&(_, tare)| tare));
        let contents = range(first.iter().map(|&(content, _)| content));
        let ratio = if tares == 0 { None } else { Some(100 * contents / tares) };
        let total = ratio.map_or(initial, |ratio| self.plan.total(ratio));
        if total > self.plan.n {
            return Err(18);
        }
        let all = self.opened(total).ok_or(19)?;
        let sum: i64 = all.iter().map(|&(_, tare)| tare).sum();
        let average = if total == 0 { 0 } else { nearest(sum, total as i64) };
        self.settled = Some(Tare { total, average, ratio });
        Ok(())
    }

    pub fn reopen(&mut self) -> Answer {
        self.settled.take().map(|_| ()).ok_or(20)
    }

    /// What closing gives. The caller drops the sheet where it is a record.
    pub fn close(&self) -> Result<Record, u8> {
        let tare = self.settled.ok_or(20)?;
        let weighed: Vec<Weighed> = self.places.iter().copied().collect::<Option<_>>().ok_or(21)?;
        let labels: Vec<i64> = weighed.iter().map(|place| self.label(place)).collect();
        let mut packages = Vec::with_capacity(weighed.len());
        for (place, &label) in weighed.iter().zip(&labels) {
            let dried = moisture(label, self.lot.allowance);
            let error = place.gross - label - tare.average + dried;
            if !(-8_000..=8_000).contains(&error) {
                return Err(22);
            }
            packages.push(Package { error, mav: self.kind.mav(label * self.lot.division) });
        }
        let decision = decide(&self.plan, self.lot.division, &packages);
        let (category, kind, lot, plan) = (self.category, self.kind, self.lot, self.plan);
        Ok(Record { category, kind, lot, plan, tare, labels, packages, decision })
    }

    fn in_sample(&self, place: i64) -> Result<usize, u8> {
        if (1..=self.plan.n as i64).contains(&place) {
            Ok(place as usize - 1)
        } else {
            Err(11)
        }
    }

    fn readable(&self, gross: i64, label: Option<i64>) -> Answer {
        let fits = match label {
            Some(label) => self.lot.label.is_none() && label_in_range(label),
            None => self.lot.label.is_some(),
        };
        if gross <= LARGEST && fits {
            Ok(())
        } else {
            Err(12)
        }
    }

    fn not_frozen(&self, at: usize) -> Answer {
        match self.settled {
            Some(tare) if at < tare.total => Err(13),
            _ => Ok(()),
        }
    }

    /// The label of a package: its own on a random sheet, else the lot's.
    fn label(&self, place: &Weighed) -> i64 {
        self.lot.label.or(place.label).expect("one of the two is given (12)")
    }

    /// Content less label, and tare, of the first places, if all of them are opened.
    fn opened(&self, count: usize) -> Option<Vec<(i64, i64)>> {
        let reading = |place: &Option<Weighed>| {
            let weighed = (*place)?;
            let tare = weighed.tare?;
            Some((weighed.gross - tare - self.label(&weighed), tare))
        };
        self.places[..count].iter().map(reading).collect()
    }
}
