//! Lots decided from their package errors alone, one or two lists of them, as `decide` prints them.
//! The format is that of README.md and of the stored sample; a lot that cannot be decided prints
//! only that.

use crate::deciding::{decide, unreasonable, Decision, Package};
use crate::sheet::{plan_for, Lot};
use crate::tables::{Category, Kind};

/// A lot with the errors of its packages.
#[derive(Clone, Debug)]
pub struct Listed {
    pub category: Category,
    pub kind: Kind,
    pub lot: Lot,
    /// In a random lot one for each package, else none.
    pub labels: Vec<i64>,
    /// One list of errors, or two.
    pub lists: Vec<Vec<i64>>,
}

/// Whether no error is lower in the second list.
pub fn none_lower(first: &[i64], second: &[i64]) -> bool {
    first.iter().zip(second).all(|(first, second)| first <= second)
}

/// Whether a package stood below another one and rose by more.
pub fn breaks_order(first: &[i64], second: &[i64], lower: usize, higher: usize) -> bool {
    first[lower] < first[higher] && second[lower] - first[lower] > second[higher] - first[higher]
}

/// A pair of packages that breaks the order, if there is one.
pub fn order_broken(first: &[i64], second: &[i64]) -> Option<(usize, usize)> {
    let pairs = |lower| (0..first.len()).map(move |higher| (lower, higher));
    let mut all = (0..first.len()).flat_map(pairs);
    all.find(|&(lower, higher)| breaks_order(first, second, lower, higher))
}

impl Listed {
    /// The lot as it is typed.
    pub fn text(&self) -> String {
        let row = |name: &str, numbers: &[i64]| {
            let words: Vec<String> = numbers.iter().map(i64::to_string).collect();
            format!("{name} {}\n", words.join(" "))
        };
        let label = self.lot.label.map_or("-".to_string(), |label| label.to_string());
        let (category, kind) = (self.category.letter(), self.kind.word());
        let (size, division) = (self.lot.size, self.lot.division);
        let mut text = format!("lot {category} {kind} {size} {division} {label}\n");
        if self.lot.label.is_none() {
            text += &row("labels", &self.labels);
        }
        self.lists.iter().for_each(|list| text += &row("errors", list));
        text
    }

    pub fn read(text: &str) -> Option<Listed> {
        let mut lines = text.lines();
        let words: Vec<&str> = lines.next()?.split_whitespace().collect();
        let ["lot", category, kind, size, division, label] = words[..] else { return None };
        let label = if label == "-" { None } else { Some(label.parse().ok()?) };
        let lot =
            Lot { size: size.parse().ok()?, division: division.parse().ok()?, label, allowance: 0 };
        let category = Category::from_word(category.as_bytes())?;
        let kind = Kind::from_word(kind.as_bytes())?;
        let (mut labels, mut lists) = (Vec::new(), Vec::new());
        for line in lines {
            let mut words = line.split_whitespace();
            let name = words.next()?;
            let numbers: Vec<i64> = words.map(|word| word.parse().ok()).collect::<Option<_>>()?;
            match name {
                "labels" => labels = numbers,
                "errors" => lists.push(numbers),
                _ => return None,
            }
        }
        Some(Listed { category, kind, lot, labels, lists })
    }

    /// What is printed of the lot that begins on this line.
    pub fn answer(&self, line: usize) -> Option<Vec<String>> {
        let plan = plan_for(self.category, self.kind, &self.lot).ok()?;
        let counts = if plan.counts_short { "short" } else { "unreasonable" };
        let mut out = vec![
            format!("lot on line {line}"),
            format!("sample {}", plan.n),
            format!("factor {}", plan.factor),
            format!("allowed {} {counts}", plan.allowed),
        ];
        let fits = |list: &Vec<i64>| {
            list.len() == plan.n && list.iter().all(|error| (-8_000..=8_000).contains(error))
        };
        let labeled = if self.lot.label.is_none() { plan.n } else { 0 };
        let labels_fit = self.labels.iter().all(|label| (1..=999_999).contains(label));
        if self.lists.is_empty() || self.lists.len() > 2 || !self.lists.iter().all(fits) {
            return None;
        }
        if self.labels.len() != labeled || !labels_fit {
            return None;
        }
        for (list, name) in self.lists.iter().zip(["first list", "second list"]) {
            if self.lists.len() == 2 {
                out.push(name.to_string());
            }
            let package = |(at, &error): (usize, &i64)| {
                let label = self.lot.label.unwrap_or_else(|| self.labels[at]);
                Package { error, mav: self.kind.mav(label * self.lot.division) }
            };
            let packages: Vec<Package> = list.iter().enumerate().map(package).collect();
            self.print_packages(&packages, &mut out);
            print_decision(&decide(&plan, self.lot.division, &packages), &mut out);
        }
        if let [first, second] = &self.lists[..] {
            print_rule(first, second, &mut out);
        }
        Some(out)
    }

    fn print_packages(&self, packages: &[Package], out: &mut Vec<String>) {
        for (at, package) in packages.iter().enumerate() {
            let (place, mav, error) = (at + 1, package.mav, package.error);
            let short = if error < 0 { " short" } else { "" };
            let past = if unreasonable(package, self.lot.division) { " unreasonable" } else { "" };
            let (top, bottom) = (mav.numerator, mav.denominator);
            out.push(format!("package {place} mav {top}/{bottom} error {error}{short}{past}"));
        }
    }
}

fn print_decision(decision: &Decision, out: &mut Vec<String>) {
    let passes = if decision.verdict.passes() { "passes" } else { "fails" };
    out.extend([
        format!("total {}", decision.total),
        format!("squares {}", decision.squares),
        format!("short {}", decision.short),
        format!("unreasonable {}", decision.unreasonable),
        format!("deviation {}", decision.deviation),
        format!("limit {}", decision.limit),
        format!("verdict {}: {passes}", decision.verdict.word()),
    ]);
}

fn print_rule(first: &[i64], second: &[i64], out: &mut Vec<String>) {
    if let Some(at) = (0..first.len()).find(|&at| second[at] < first[at]) {
        out.push(format!("{LOWER} {} is lower", at + 1));
        return;
    }
    out.push("no error lower: at most as many counted".to_string());
    out.push(match order_broken(first, second) {
        None => "rises keep the order: passes if the first did".to_string(),
        Some((lower, higher)) => {
            let (lower, higher) = (lower + 1, higher + 1);
            format!("{BROKEN} {lower} stood below package {higher} and rose by more")
        }
    });
    out.push(match first.iter().sum::<i64>() {
        0.. => "average not below zero: passes if the first did".to_string(),
        _ => "nothing follows from the average: it is below zero".to_string(),
    });
}

/// How the lines begin that name packages by way of example.
pub const LOWER: &str = "nothing follows: the error of package";
pub const BROKEN: &str = "nothing follows from the order: package";

/// The answers to all lots of an input, which blank lines part.
pub fn answers(input: &str) -> String {
    let mut out = String::new();
    let mut lot = String::new();
    let mut began = 1;
    for (index, line) in input.lines().chain([""]).enumerate() {
        if line.trim().is_empty() {
            if !lot.is_empty() {
                let answer = Listed::read(&lot).and_then(|listed| listed.answer(began));
                out += &answer.map_or("no decision\n".to_string(), |lines| lines.join("\n") + "\n");
                lot.clear();
            }
            began = index + 2;
        } else {
            lot = lot + line + "\n";
        }
    }
    out
}

#[cfg(test)]
mod tests {
    #[test]
    fn two_lists() {
        let input = "lot A mus 250 10 1000\nerrors -1 -1 -1 -1 -1 -1 -1 -1 -1 -1 -1 -40\n\
                     errors -1 -1 -1 -1 -1 -1 -1 -1 -1 -1 -1 -1\n";
        let out = super::answers(input);
        assert!(out.contains("limit 7148\nverdict within: passes\nsecond list\n"));
        assert!(out.contains("verdict average: fails\nno error lower: at most as many counted\n"));
        assert!(out.contains("package 12 stood below package 1 and rose by more\n"));
    }
}
