//! The text: bytes to lines, words and commands, and the transcript, after docs/TEXT.md.

use crate::sheet::{Lot, Record, Sheet};
use crate::tables::{Category, Kind};

pub const LONGEST_TEXT: usize = 65_536;

/// A word and its column.
type Word<'a> = (usize, &'a [u8]);

/// The column of a refusal and its number.
type Refusal = (usize, u8);

/// A command with its numbers, all of its words being fit.
enum Command {
    Lot(Category, Kind, Lot),
    Weigh(i64, i64, Option<i64>),
    Correct(i64, i64, Option<i64>),
    Strike(i64),
    Open(i64, i64),
    Settle,
    Reopen,
    Close,
}

fn words(line: &[u8]) -> Vec<Word<'_>> {
    let mut found = Vec::new();
    let mut column = 1;
    for word in line.split(|&byte| byte == b' ') {
        if !word.is_empty() {
            found.push((column, word));
        }
        column += word.len() + 1;
    }
    found
}

fn number(word: &[u8]) -> Option<i64> {
    let digits = (1..=9).contains(&word.len()) && word.iter().all(u8::is_ascii_digit);
    if !digits || (word[0] == b'0' && word.len() > 1) {
        return None;
    }
    Some(word.iter().fold(0, |value, digit| value * 10 + i64::from(digit - b'0')))
}

/// The command of a line that is not blank, by questions 2 to 5.
fn command(words: &[Word]) -> Result<Command, Refusal> {
    let (first, name) = words[0];
    let behind = &words[1..];
    let counts = match name {
        b"lot" => 6..=6,
        b"wt" | b"fix" => 2..=3,
        b"del" => 1..=1,
        b"op" => 2..=2,
        b"set" | b"re" | b"end" => 0..=0,
        _ => return Err((first, 2)),
    };
    if !counts.contains(&behind.len()) {
        return Err((first, 3));
    }
    let fit = |&(column, word): &Word| number(word).ok_or((column, 4));

    if name == b"lot" {
        let size = fit(&behind[2])?;
        let division = fit(&behind[3])?;
        let label = if behind[4].1 == b"-" { None } else { Some(fit(&behind[4])?) };
        let allowance = fit(&behind[5])?;
        let category = Category::from_word(behind[0].1).ok_or((behind[0].0, 5))?;
        let kind = Kind::from_word(behind[1].1).ok_or((behind[1].0, 5))?;
        return Ok(Command::Lot(category, kind, Lot { size, division, label, allowance }));
    }
    let numbers: Vec<i64> = behind.iter().map(fit).collect::<Result<_, _>>()?;
    Ok(match name {
        b"wt" => Command::Weigh(numbers[0], numbers[1], numbers.get(2).copied()),
        b"fix" => Command::Correct(numbers[0], numbers[1], numbers.get(2).copied()),
        b"del" => Command::Strike(numbers[0]),
        b"op" => Command::Open(numbers[0], numbers[1]),
        b"set" => Command::Settle,
        b"re" => Command::Reopen,
        _ => Command::Close,
    })
}

/// Where the text stands.
pub enum Stand {
    Before,
    Open(Sheet),
    Closed(Box<Record>),
}

impl Stand {
    /// Takes a line, and prints its refusal or the report of the closing. Answers the number of
    /// the refusal.
    pub fn take_line(&mut self, line_number: usize, line: &[u8], out: &mut Vec<u8>) -> Option<u8> {
        let words = words(line);
        let &(first, _) = words.first()?;
        let answer = command(&words)
            .and_then(|command| self.carry_out(command, out).map_err(|number| (first, number)));
        let (column, number) = answer.err()?;
        let letter = letter(number);
        out.extend(format!("{line_number} {column} {letter} {number}\n").bytes());
        Some(number)
    }

    /// Asks 6 and 7, then the sheet. Only the closing prints.
    fn carry_out(&mut self, command: Command, out: &mut Vec<u8>) -> Result<(), u8> {
        if let Command::Lot(category, kind, lot) = command {
            if !matches!(self, Stand::Before) {
                return Err(7);
            }
            *self = Stand::Open(Sheet::start(category, kind, lot)?);
            return Ok(());
        }
        let Stand::Open(sheet) = self else { return Err(6) };
        match command {
            Command::Weigh(place, gross, label) => sheet.weigh(place, gross, label),
            Command::Correct(place, gross, label) => sheet.correct(place, gross, label),
            Command::Strike(place) => sheet.strike(place),
            Command::Open(place, tare) => sheet.open(place, tare),
            Command::Settle => sheet.settle(),
            Command::Reopen => sheet.reopen(),
            Command::Close | Command::Lot(..) => {
                let record = sheet.close()?;
                report(&record, out);
                *self = Stand::Closed(Box::new(record));
                Ok(())
            }
        }
    }
}

fn letter(number: u8) -> char {
    match number {
        1..=5 => 'T',
        6..=7 => 'K',
        8..=9 => 'P',
        _ => 'S',
    }
}

fn report(record: &Record, out: &mut Vec<u8>) {
    let decision = &record.decision;
    let lines = [
        format!("sample {}\n", record.plan.n),
        format!("tare {} {}\n", record.tare.total, record.tare.average),
        format!("total {}\n", decision.total),
        format!("short {}\n", decision.short),
        format!("unreasonable {}\n", decision.unreasonable),
        format!("deviation {}\n", decision.deviation),
        format!("limit {}\n", decision.limit),
        format!("verdict {}\n", decision.verdict.word()),
    ];
    out.extend(lines.concat().bytes());
}

/// The lines of a text. Behind a last line feed there is no further line.
fn lines(text: &[u8]) -> impl Iterator<Item = &[u8]> {
    text.split_inclusive(|&byte| byte == b'\n').map(|line| line.strip_suffix(b"\n").unwrap_or(line))
}

/// The transcript of a text, and the record where a closing was accepted.
pub fn inspect(text: &[u8]) -> (Vec<u8>, Option<Box<Record>>) {
    if text.len() > LONGEST_TEXT {
        return (b"1 1 T 1\n".to_vec(), None);
    }
    let mut stand = Stand::Before;
    let mut out = Vec::new();
    for (index, line) in lines(text).enumerate() {
        stand.take_line(index + 1, line, &mut out);
    }
    match stand {
        Stand::Closed(record) => (out, Some(record)),
        _ => {
            out.extend(b"open\n");
            (out, None)
        }
    }
}

pub fn transcript(text: &[u8]) -> Vec<u8> {
    inspect(text).0
}

#[cfg(test)]
mod tests {
    use super::*;

    fn printed(text: &str) -> String {
        String::from_utf8(transcript(text.as_bytes())).unwrap()
    }

    #[test]
    fn words_and_columns() {
        let text = "  lot A mus 3 10 0500 0\nlot D mus 3 10 500 x\nlot D kg 3 10 500 0\n\
                    lot A kg 3 10 500\n\n wt 1 520\nwt 1 520 -\nLot A mus 3 10 500 0\n\
                    lot A mus 0 10 500 0\n";
        let expected = "1 18 T 4\n2 20 T 4\n3 5 T 5\n4 1 T 3\n6 2 K 6\n7 10 T 4\n8 1 T 2\n\
                        9 1 P 8\nopen\n";
        assert_eq!(printed(text), expected);
    }

    #[test]
    fn before_the_lot_and_after_the_closing() {
        let text = "wt 1 520\nlot A mus 1 10 500 0\nlot A mus 1 10 500 0\nwt 1 520\nop 1 20\n\
                    set\nend\nwt 1 519\nlot B mus 10 10 500 0";
        let expected = "1 1 K 6\n3 1 K 7\nsample 1\ntare 1 20\ntotal 0\nshort 0\n\
                        unreasonable 0\ndeviation 0\nlimit 0\nverdict plan\n8 1 K 6\n9 1 K 7\n";
        assert_eq!(printed(text), expected);
    }

    #[test]
    fn the_longest_text() {
        assert_eq!(transcript(&vec![b' '; LONGEST_TEXT]), b"open\n");
        assert_eq!(transcript(&vec![b' '; LONGEST_TEXT + 1]), b"1 1 T 1\n");
        assert_eq!(printed(""), "open\n");
        assert_eq!(printed("\r\n\r"), "1 1 T 2\n2 1 T 2\nopen\n");
    }
}
