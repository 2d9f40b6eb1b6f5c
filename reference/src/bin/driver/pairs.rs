//! The rule for two sheets: pairs of sheets for one lot, no error lower in the second.

use std::collections::BTreeMap;
use std::io;
use std::sync::Arc;

use crate::draft::Draft;
use crate::limits::OnTheLimit;
use crate::process;
use crate::random::Random;
use crate::typing::plain_text;
use reference::lists::{none_lower, order_broken};

/// What a pair is meant to have.
#[derive(Clone, Copy, PartialEq)]
pub enum Sort {
    /// No error rose by less than one that had stood lower.
    OrderKept,
    /// The average error of the first is not below zero.
    NotBelowZero,
    Neither,
}

struct Pair {
    first: Draft,
    second: Draft,
}

/// Pairs for one process.
const CHUNK: usize = 1_000;

/// A list with no error lower than in the first.
pub fn second_list(random: &mut Random, first: &[i64], sort: Sort) -> Vec<i64> {
    let room = 8_000 - first.iter().max().expect("a sample is not empty");
    let step = random.pick(&[1, 3, 20, 200]).min(room);
    let mut order: Vec<usize> = (0..first.len()).collect();
    order.sort_by_key(|&at| first[at]);
    let mut second = first.to_vec();
    match sort {
        Sort::OrderKept => {
            // from the lowest up: each rises at least as much as all that stood below it
            let (mut below, mut largest) = (0, 0);
            for (rank, &at) in order.iter().enumerate() {
                if rank > 0 && first[order[rank - 1]] < first[at] {
                    below = largest;
                }
                let rise =
                    if random.once_in(3) { random.between(below, below + step) } else { below };
                second[at] += rise.min(room);
                largest = largest.max(rise.min(room));
            }
        }
        Sort::NotBelowZero => {
            for error in &mut second {
                *error = random.between(*error, (*error + step).min(8_000));
            }
        }
        Sort::Neither => {
            // the lowest are topped up, to the middle or a little above it
            let middle = first[order[first.len() / 2]] + random.pick(&[0, 0, 1, step]);
            let topped = 1 + random.below(first.len() / 2 + 1);
            for &at in order.iter().take(topped) {
                second[at] = second[at].max(middle.min(8_000));
            }
        }
    }
    second
}

/// Errors of a first sheet that mostly passes, and by its spread where it is short.
fn first_list(random: &mut Random, draft: &Draft, sort: Sort) -> Vec<i64> {
    let n = draft.plan.n as i64;
    let spread = random.pick(&[1, 3, 10, 50, 300]);
    let mut errors: Vec<i64> = (0..n).map(|_| random.between(-spread, spread)).collect();
    if random.once_in(2) {
        // one light package gives the spread that excuses the others
        errors.iter_mut().for_each(|error| *error = *error / 8 - 1);
        let at = random.below(draft.plan.n);
        errors[at] = -spread * 3;
    }
    for (at, error) in errors.iter_mut().enumerate() {
        *error = (*error).max(draft.last_reasonable(at).0);
    }
    if random.once_in(10) {
        let at = random.below(draft.plan.n);
        errors[at] = draft.last_reasonable(at).0 - 1;
    }
    let total: i64 = errors.iter().sum();
    if sort == Sort::NotBelowZero && total < 0 {
        let mut lift = -total + random.pick(&[0, 0, 1, 30]);
        while lift > 0 {
            let at = random.below(draft.plan.n);
            let by = random.between(1, lift);
            errors[at] += by;
            lift -= by;
        }
    }
    errors
}

impl Pair {
    /// A pair with texts that both close with the errors that were drawn.
    fn new(random: &mut Random, on_the_limit: &OnTheLimit) -> (Pair, [Vec<u8>; 2]) {
        loop {
            let sort = random.pick(&[Sort::OrderKept, Sort::NotBelowZero, Sort::Neither]);
            let mut first = Draft::new(random, on_the_limit);
            if !random.once_in(4) {
                first.errors = first_list(random, &first, sort);
            }
            if first.errors.iter().any(|error| !(-8_000..=8_000).contains(error)) {
                continue;
            }
            first.fit();
            let mut second = first.clone();
            second.errors = second_list(random, &first.errors, sort);
            if first.kind.weighed() {
                // other tares, and at times another allowance: only the errors count
                second.draw_tares(random);
                if random.once_in(3) {
                    second.lot.allowance = random.between(0, 100);
                }
            }
            second.fit();
            let texts = [plain_text(random, &first), plain_text(random, &second)];
            let closes = |draft: &Draft, text: &[u8]| {
                reference::inspect(text).1.is_some_and(|record| {
                    record
                        .packages
                        .iter()
                        .map(|package| package.error)
                        .eq(draft.errors.iter().copied())
                })
            };
            if closes(&first, &texts[0]) && closes(&second, &texts[1]) {
                return (Pair { first, second }, texts);
            }
        }
    }
}

/// The numbers of a report that the rule speaks of.
struct Report {
    total: i64,
    counted: i64,
    passes: bool,
}

fn report(transcript: &[u8], counts_short: bool) -> Option<Report> {
    let transcript = std::str::from_utf8(transcript).ok()?;
    let after = |name: &str| transcript.lines().find_map(|line| line.strip_prefix(name));
    let counted = if counts_short { "short " } else { "unreasonable " };
    Some(Report {
        total: after("total ")?.parse().ok()?,
        counted: after(counted)?.parse().ok()?,
        passes: matches!(after("verdict ")?, "plan" | "over" | "within"),
    })
}

pub fn compare(program: &[String], seed: u64, count: usize) -> io::Result<bool> {
    let mut random = Random::new(seed);
    let on_the_limit = OnTheLimit::search(&mut random);
    // by what the pair has: how many, where the first passed, where then the second passed
    let mut counts: BTreeMap<&str, [usize; 3]> = BTreeMap::new();
    let mut fewer = 0;
    let mut left = count;
    while left > 0 {
        let chunk = left.min(CHUNK);
        left -= chunk;
        let (mut pairs, mut texts) = (Vec::new(), Vec::new());
        for _ in 0..chunk {
            let (pair, both) = Pair::new(&mut random, &on_the_limit);
            pairs.push(pair);
            texts.extend(both);
        }
        let texts = Arc::new(texts);
        let answers = process::transcripts(program, &texts)?;
        for (at, pair) in pairs.iter().enumerate() {
            let (e1, e2) = (&pair.first.errors, &pair.second.errors);
            assert!(none_lower(e1, e2), "no error is drawn lower");
            let read = |at: usize| report(&answers[at], pair.first.plan.counts_short);
            let (first, second) = (read(2 * at), read(2 * at + 1));
            let kept = order_broken(e1, e2).is_none();
            let not_below = e1.iter().sum::<i64>() >= 0;
            let breach = match (&first, &second) {
                (Some(first), Some(second)) => {
                    let sort = match (kept, not_below) {
                        (true, true) => "order kept, average not below zero",
                        (true, false) => "order kept, average below zero",
                        (false, true) => "order broken, average not below zero",
                        (false, false) => "neither",
                    };
                    let [pairs, passed, passed_too] = counts.entry(sort).or_default();
                    *pairs += 1;
                    *passed += usize::from(first.passes);
                    *passed_too += usize::from(first.passes && second.passes);
                    fewer += usize::from(second.counted < first.counted);
                    second.counted > first.counted
                        || (first.passes && (kept || not_below) && !second.passes)
                        || first.total != e1.iter().sum::<i64>()
                        || second.total != e2.iter().sum::<i64>()
                }
                _ => true,
            };
            if breach {
                crate::show("first text", &texts[2 * at]);
                crate::show("the program prints", &answers[2 * at]);
                crate::show("second text", &texts[2 * at + 1]);
                crate::show("the program prints", &answers[2 * at + 1]);
                println!("the rule for two sheets does not hold of them");
                return Ok(false);
            }
        }
    }
    println!(
        "{:<40}{:>8}{:>14}{:>14}{:>14}",
        "", "pairs", "first passes", "second too", "second fails"
    );
    for (sort, [pairs, passed, passed_too]) in &counts {
        let fails = passed - passed_too;
        println!("{sort:<40}{pairs:>8}{passed:>14}{passed_too:>14}{fails:>14}");
    }
    println!("K is nowhere higher in the second, and lower in {fewer} pairs");
    println!("{count} pairs, the rule for two sheets holds of every one");
    Ok(true)
}
