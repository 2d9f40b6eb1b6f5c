//! A draft typed as a text, with detours: refused lines of every sort, corrections, strikes,
//! reopenings, and lines behind the closing. A stand of the reference follows each line, so that
//! the typist knows what is still to be typed.

use crate::draft::Draft;
use crate::limits::OnTheLimit;
use crate::random::Random;
use reference::sheet::{Sheet, Weighed};
use reference::tables::{CATEGORIES, KINDS};
use reference::text::Stand;

pub struct Typist<'a> {
    random: &'a mut Random,
    pub text: Vec<u8>,
    stand: Stand,
    lines: usize,
    /// Whether spaces and blank lines are strewn in.
    sloppy: bool,
    /// One stray line in so many; 0 for none.
    strays: usize,
}

/// A whole sheet, with detours.
pub fn sheet_text(random: &mut Random, on_the_limit: &OnTheLimit) -> Vec<u8> {
    let mut draft = Draft::new(random, on_the_limit);
    let strays = random.pick(&[0, 0, 40, 15, 5, 2]);
    let sloppy = random.once_in(4);
    let mut typist = Typist::new(random, sloppy, strays);
    if strays > 0 {
        for _ in 0..typist.random.below(5) {
            typist.stray(&draft);
        }
    }
    for attempt in 0..4 {
        typist.fill(&draft);
        if typist.strays > 0 {
            // on a settled sheet, where places are frozen
            for _ in 0..typist.random.below(3) {
                typist.stray(&draft);
            }
        }
        if typist.random.once_in(6) {
            typist.probe(&draft);
        }
        typist.line("end");
        if matches!(typist.stand, Stand::Closed(_)) {
            break;
        }
        if attempt >= 1 {
            typist.strays = 0;
        }
        if attempt >= 2 || typist.random.once_in(2) {
            // an error past the end of its range was refused (22)
            draft.errors.iter_mut().for_each(|error| *error = (*error).clamp(-8_000, 8_000));
            draft.fit();
        }
    }
    if typist.random.once_in(3) {
        for _ in 0..typist.random.between(1, 5) {
            typist.stray(&draft);
        }
    }
    let mut text = typist.text;
    if random.once_in(8) {
        text.pop();
    }
    text
}

/// A sheet without detours, for pairs.
pub fn plain_text(random: &mut Random, draft: &Draft) -> Vec<u8> {
    let mut typist = Typist::new(random, false, 0);
    typist.fill(draft);
    typist.line("end");
    typist.text
}

impl<'a> Typist<'a> {
    fn new(random: &'a mut Random, sloppy: bool, strays: usize) -> Typist<'a> {
        Typist { random, text: Vec::new(), stand: Stand::Before, lines: 0, sloppy, strays }
    }

    /// Types a line; answers the number of its refusal.
    fn line(&mut self, words: &str) -> Option<u8> {
        if self.sloppy && self.random.once_in(8) {
            let spaces = self.random.below(3);
            self.raw(&b" ".repeat(spaces));
        }
        let mut line = Vec::new();
        for (order, word) in words.split(' ').enumerate() {
            if order > 0 {
                line.push(b' ');
            }
            if self.sloppy && self.random.once_in(6) {
                line.extend(b" ".repeat(self.random.below(4)));
            }
            line.extend(word.bytes());
        }
        if self.sloppy && self.random.once_in(6) {
            line.extend(b" ".repeat(self.random.below(4)));
        }
        self.raw(&line)
    }

    fn raw(&mut self, line: &[u8]) -> Option<u8> {
        self.lines += 1;
        self.text.extend(line);
        self.text.push(b'\n');
        self.stand.take_line(self.lines, line, &mut Vec::new())
    }

    fn sheet(&self) -> Option<&Sheet> {
        match &self.stand {
            Stand::Open(sheet) => Some(sheet),
            _ => None,
        }
    }

    /// What stands at a place, counted from 0.
    fn at(&self, at: usize) -> Option<Weighed> {
        self.sheet()?.places.get(at).copied().flatten()
    }

    fn settled(&self) -> Option<usize> {
        Some(self.sheet()?.settled?.total)
    }

    fn frozen(&self, at: usize) -> bool {
        self.settled().is_some_and(|total| at < total)
    }

    fn label_word(draft: &Draft, at: usize) -> String {
        match draft.lot.label {
            Some(_) => String::new(),
            None => format!(" {}", draft.labels[at]),
        }
    }

    /// Types what is missing until the sheet has what the draft has and is settled.
    fn fill(&mut self, draft: &Draft) {
        if matches!(self.stand, Stand::Before) {
            self.line(&lot_line(draft));
        }
        let mut order: Vec<usize> = (0..draft.plan.n).collect();
        if self.random.once_in(2) {
            self.random.shuffle(&mut order);
        }
        let open_at_once = self.random.once_in(4);
        for at in order {
            self.stray_at_times(draft);
            self.weigh(draft, at);
            if open_at_once && self.random.once_in(2) {
                self.open(draft, at);
            }
        }
        for _ in 0..2 {
            // the second time after a 19, or after a stray line has undone something
            let wanted = self.wanted_opened(draft);
            if self.random.once_in(12) {
                self.line("set");
            }
            for at in 0..wanted {
                self.stray_at_times(draft);
                self.weigh(draft, at);
                self.open(draft, at);
            }
            if self.settled().is_none() && self.line("set") != Some(19) {
                break;
            }
        }
    }

    fn weigh(&mut self, draft: &Draft, at: usize) {
        let label = Self::label_word(draft, at);
        let wanted = (draft.grosses[at], draft.lot.label.map_or(Some(draft.labels[at]), |_| None));
        let place = at + 1;
        let words = format!("{place} {}{label}", wanted.0);
        match self.at(at) {
            None => {
                self.line(&format!("wt {words}"));
            }
            Some(weighed) if (weighed.gross, weighed.label) == wanted => {}
            Some(_) => {
                if self.frozen(at) {
                    self.line("re");
                }
                if self.random.once_in(3) {
                    self.line(&format!("del {place}"));
                    self.line(&format!("wt {words}"));
                } else {
                    self.line(&format!("fix {words}"));
                }
            }
        }
    }

    fn open(&mut self, draft: &Draft, at: usize) {
        let wanted = Some(draft.tares[at]);
        if self.at(at).is_some_and(|weighed| weighed.tare != wanted) {
            if self.frozen(at) {
                self.line("re");
            }
            self.line(&format!("op {} {}", at + 1, draft.tares[at]));
        }
    }

    /// How many packages must be opened: the first i, and then the total that settling asked for.
    fn wanted_opened(&self, draft: &Draft) -> usize {
        let Some(sheet) = self.sheet() else { return 0 };
        if !draft.kind.weighed() {
            return 0;
        }
        let initial = draft.plan.initial;
        let mut tried = sheet.clone();
        tried.settled = None;
        if tried.settle() != Err(19) {
            return initial;
        }
        (initial..=draft.plan.n)
            .find(|&count| {
                for at in 0..count {
                    let _ = tried.open(at as i64 + 1, draft.tares[at]);
                }
                tried.clone().settle() != Err(19)
            })
            .unwrap_or(initial)
    }

    /// On a settled sheet: strikes or spoils a place so that the closing is refused.
    fn probe(&mut self, draft: &Draft) {
        let Some(total) = self.settled() else { return };
        if total == draft.plan.n {
            return;
        }
        let at = self.random.between(total as i64, draft.plan.n as i64 - 1) as usize;
        let label = Self::label_word(draft, at);
        let place = at + 1;
        if self.random.once_in(2) {
            self.line(&format!("del {place}"));
        } else {
            let off = self.random.pick(&[8_001, 9_000, 500_000, -8_001, -9_000]);
            let gross = (draft.grosses[at] - draft.errors[at] + off).clamp(0, 999_999);
            self.line(&format!("fix {place} {gross}{label}"));
        }
        self.line("end");
        self.weigh(draft, at);
    }

    fn stray_at_times(&mut self, draft: &Draft) {
        if self.strays > 0 && self.random.once_in(self.strays) {
            self.stray(draft);
        }
    }

    /// A line that is mostly refused. What it changes is typed anew later.
    fn stray(&mut self, draft: &Draft) {
        let n = draft.plan.n as i64;
        let place = self.random.between(1, n);
        let at = place as usize - 1;
        let label = Self::label_word(draft, at);
        let gross = self.at(at).map_or(draft.grosses[at], |weighed| weighed.gross);
        let outside = self.random.pick(&[0, n + 1, 49, 1_000, 999_999_999]);
        let bad = self.random.pick(&BAD_NUMBERS);
        let line = match self.random.below(24) {
            0 => self.random.pick(&NO_COMMANDS).to_string(),
            1 => self.random.pick(&WRONG_COUNTS).to_string(),
            2 => match self.random.below(6) {
                0 => format!("wt {bad} {gross}"),
                1 => format!("fix {place} {bad}{label}"),
                2 => format!("wt {place} {gross} {bad}"),
                3 => format!("del {bad}"),
                4 => format!("op {place} {bad}"),
                _ => format!("op {bad} {bad}"),
            },
            3 => {
                let mut words: Vec<String> = lot_line(draft).split(' ').map(String::from).collect();
                for _ in 0..self.random.between(1, 2) {
                    let word = self.random.between(1, 6) as usize;
                    words[word] = bad.to_string();
                }
                words.join(" ")
            }
            4 => {
                let category = self.random.pick(&["D", "a", "AA", "7", "-", "A", "B"]);
                let kind = self.random.pick(&["kg", "Mus", "oz", "msii", "3", "mus", "-"]);
                format!("lot {category} {kind} 12 10 500 0")
            }
            5 => lot_line(draft),
            6 => {
                let category = self.random.pick(&CATEGORIES).letter();
                let kind = self.random.pick(&KINDS).word();
                let size = self.random.pick(&["0", "1000001", "1", "999999999", "12"]);
                let division = self.random.pick(&["0", "1", "100001", "100000", "10"]);
                let label = self.random.pick(&["0", "1000000", "-", "500", "999999"]);
                let allowance = self.random.pick(&["101", "0", "100", "0", "999999999"]);
                format!("lot {category} {kind} {size} {division} {label} {allowance}")
            }
            7 => self
                .random
                .pick(&[
                    "lot B mus 9 10 500 0",
                    "lot B cnt 12 1 500 0",
                    "lot A cnt 12 1 50 0",
                    "lot A cnt 12 1 - 0",
                    "lot A cnt 12 2 500 0",
                    "lot C cnt 12 1 51 0",
                    "lot C cnt 12 2 50 0",
                    "lot C mus 12 1 50 0",
                    "lot C mus 12 1 - 0",
                    "lot C cnt 12 1 - 0",
                    "lot A lsi 12 10 - 0",
                    "lot A lsi 12 10 500 1",
                    "lot A len 12 10 500 1",
                    "lot A are 3 1 - 0",
                    "lot A are 3 1 500 100",
                ])
                .to_string(),
            8 => match self.random.below(4) {
                0 => format!("wt {outside} {gross}{label}"),
                1 => format!("fix {outside} 1000000"),
                2 => format!("del {outside}"),
                _ => format!("op {outside} 1"),
            },
            9 => match self.random.below(6) {
                0 => format!("wt {place} 1000000{label}"),
                1 => format!("fix {place} 999999999{label}"),
                2 => format!("wt {place} {gross} 500"),
                3 => format!("fix {place} {gross}"),
                4 => format!("fix {place} {gross} 0"),
                _ => format!("wt {place} {gross} 1000000"),
            },
            10 => format!("wt {place} {gross}{label}"),
            11 => format!("del {place}"),
            12 => {
                let spoiled = self.random.between(0, 999_999);
                format!("fix {place} {spoiled}{label}")
            }
            13 => {
                let more = self.random.pick(&[1, 2, 999_000_000]);
                format!("op {place} {}", gross + more)
            }
            14 => format!("op {place} {gross}"),
            15 => {
                let tare = self.random.between(0, gross.max(0));
                format!("op {place} {tare}")
            }
            16 => {
                // a frozen place, with a gross weight that is asked first
                let gross = self.random.pick(&["5", "999999", "1000000"]);
                format!("fix 1 {gross}{label}")
            }
            17 => self.random.pick(&["wt 1 5", "del 1", "op 1 0", "del 2"]).to_string(),
            18 | 19 => "set".to_string(),
            20 => "re".to_string(),
            21 | 22 => "end".to_string(),
            _ => {
                self.raw(b"set\r");
                return;
            }
        };
        // a closing before its time would cut the sheet short
        let closes = line == "end" && self.sheet().is_some_and(|sheet| sheet.close().is_ok());
        if !closes {
            self.line(&line);
        }
    }
}

pub fn lot_line(draft: &Draft) -> String {
    let lot = &draft.lot;
    let label = lot.label.map_or("-".to_string(), |label| label.to_string());
    let (category, kind) = (draft.category.letter(), draft.kind.word());
    format!("lot {category} {kind} {} {} {label} {}", lot.size, lot.division, lot.allowance)
}

pub const BAD_NUMBERS: [&str; 16] = [
    "01",
    "00",
    "007",
    "+7",
    "-7",
    "7.0",
    "x",
    "-",
    "--",
    "1234567890",
    "0000000001",
    "1e3",
    "1,000",
    "12a",
    "wt",
    "5\r",
];

const NO_COMMANDS: [&str; 14] = [
    "Lot A mus 3 10 500 0",
    "weigh 1 520",
    "7",
    "-",
    "wt\t1\t520",
    "end\r",
    "endd",
    "e",
    "SET",
    "\t",
    "\r",
    "\u{e9}nd",
    "A mus 3 10 500 0",
    "lo t A mus 3 10 500 0",
];

const WRONG_COUNTS: [&str; 16] = [
    "lot",
    "lot A mus 3 10 500",
    "lot A mus 3 10 500 0 0",
    "wt",
    "wt 1",
    "wt 1 2 3 4",
    "fix 1",
    "fix 1 2 3 4",
    "del",
    "del 1 2",
    "op 1",
    "op 1 2 3",
    "set 1",
    "re re",
    "end end",
    "end -",
];
