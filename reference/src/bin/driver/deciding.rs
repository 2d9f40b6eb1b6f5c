//! `decide` beside the reference: many lots in one input, the answers compared lot by lot.

use std::io;

use crate::draft::Draft;
use crate::limits::OnTheLimit;
use crate::pairs::{second_list, Sort};
use crate::process;
use crate::random::Random;
use reference::lists::{breaks_order, Listed, BROKEN, LOWER};

/// Lots in one input.
const CHUNK: usize = 500;

fn listed(random: &mut Random, on_the_limit: &OnTheLimit) -> Listed {
    let draft = Draft::new(random, on_the_limit);
    let first: Vec<i64> = draft.errors.iter().map(|&error| error.clamp(-8_000, 8_000)).collect();
    let mut lists = vec![first];
    match random.below(6) {
        0 => lists.push(second_list(random, &lists[0], Sort::OrderKept)),
        1 => lists.push(second_list(random, &lists[0], Sort::Neither)),
        2 => {
            let mut second = second_list(random, &lists[0], Sort::NotBelowZero);
            let at = random.below(second.len());
            second[at] = (lists[0][at] - 1).max(-8_000);
            lists.push(second);
        }
        _ => {}
    }
    let random_lot = draft.lot.label.is_none();
    let labels = if random_lot { draft.labels } else { Vec::new() };
    Listed { category: draft.category, kind: draft.kind, lot: draft.lot, labels, lists }
}

pub fn compare(program: &[String], seed: u64, count: usize) -> io::Result<bool> {
    let mut random = Random::new(seed);
    let on_the_limit = OnTheLimit::search(&mut random);
    let (mut lists, mut two, mut bytes) = (0, 0, 0);
    let mut left = count;
    while left > 0 {
        let chunk = left.min(CHUNK);
        left -= chunk;
        let lots: Vec<Listed> = (0..chunk).map(|_| listed(&mut random, &on_the_limit)).collect();
        let texts: Vec<String> = lots.iter().map(|lot| lot.text() + "\n").collect();
        let printed = process::answer(program, texts.concat().into_bytes())?;
        let printed = String::from_utf8_lossy(&printed);
        let mut printed_lines = printed.lines();
        let mut line = 1;
        for (lot, text) in lots.iter().zip(&texts) {
            let expected = lot.answer(line).expect("a lot that is drafted is decided");
            let found: Vec<&str> = printed_lines.by_ref().take(expected.len()).collect();
            if !same(lot, &expected, &found) {
                println!(
                    "--- lot, line {line}\n{text}--- the program prints\n{}",
                    found.join("\n")
                );
                println!("--- the reference prints\n{}", expected.join("\n"));
                return Ok(false);
            }
            line += text.lines().count();
            lists += lot.lists.len();
            two += lot.lists.len() / 2;
            bytes += text.len();
        }
        if let Some(more) = printed_lines.next() {
            println!("--- the program prints more than the lots have\n{more}");
            return Ok(false);
        }
    }
    println!(
        "{count} lots, {two} with two lists, {lists} lists, {bytes} bytes, every answer the same"
    );
    Ok(true)
}

/// Whether the lines are the same. A line that names packages by way of example may name others,
/// if what it says of them is true.
fn same(lot: &Listed, expected: &[String], found: &[&str]) -> bool {
    let line = |(expected, found): (&String, &&str)| {
        if expected == found {
            return true;
        }
        let place = |word: &str| word.parse().ok().filter(|place| (1..=48).contains(place));
        let packages: Vec<usize> = found.split(' ').filter_map(place).collect();
        let named = |begin: &str| expected.starts_with(begin) && found.starts_with(begin);
        match (&lot.lists[..], &packages[..]) {
            ([first, second], &[at]) if named(LOWER) => second[at - 1] < first[at - 1],
            ([first, second], &[lower, higher]) if named(BROKEN) => {
                breaks_order(first, second, lower - 1, higher - 1)
            }
            _ => false,
        }
    };
    expected.len() == found.len() && expected.iter().zip(found).all(line)
}
