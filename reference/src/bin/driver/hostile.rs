//! Texts that nobody meant: random bytes, odd bytes in good sheets, long words and long texts.

use crate::limits::OnTheLimit;
use crate::random::Random;
use crate::typing::{sheet_text, BAD_NUMBERS};
use reference::text::LONGEST_TEXT;

pub fn hostile_text(random: &mut Random, on_the_limit: &OnTheLimit) -> Vec<u8> {
    match random.below(160) {
        0 => long_text(random, on_the_limit),
        1..=29 => random_bytes(random),
        30..=39 => {
            let length = random.below(200);
            let byte = random.pick(b"   \n\r\t\0");
            vec![byte; length]
        }
        40..=69 => random_words(random),
        70..=79 => long_words(random, on_the_limit),
        _ => spoiled_sheet(random, on_the_limit),
    }
}

fn odd_byte(random: &mut Random) -> u8 {
    match random.below(8) {
        0 => 0,
        1 => b'\t',
        2 => b'\r',
        3 => random.between(128, 255) as u8,
        4 => b' ',
        5 => b'\n',
        6 => b'0',
        _ => random.below(256) as u8,
    }
}

fn random_bytes(random: &mut Random) -> Vec<u8> {
    let length = random.below(400);
    let plain = random.once_in(2);
    (0..length).map(|_| if plain { random.below(256) as u8 } else { odd_byte(random) }).collect()
}

/// Lines of words that each have a meaning somewhere.
fn random_words(random: &mut Random) -> Vec<u8> {
    const WORDS: [&str; 34] = [
        "lot",
        "wt",
        "fix",
        "del",
        "op",
        "set",
        "re",
        "end",
        "A",
        "B",
        "C",
        "msi",
        "mus",
        "lsi",
        "cnt",
        "len",
        "are",
        "0",
        "1",
        "2",
        "3",
        "10",
        "12",
        "48",
        "49",
        "500",
        "1000",
        "999999",
        "1000000",
        "999999999",
        "1000000000",
        "-",
        "",
        "Z",
    ];
    let mut text = Vec::new();
    for _ in 0..random.below(40) {
        for _ in 0..random.below(8) {
            let word =
                if random.once_in(12) { random.pick(&BAD_NUMBERS) } else { random.pick(&WORDS) };
            text.extend(word.bytes());
            text.push(b' ');
        }
        text.push(b'\n');
    }
    text
}

/// A sheet with words and lines of great length between its lines.
fn long_words(random: &mut Random, on_the_limit: &OnTheLimit) -> Vec<u8> {
    let sheet = sheet_text(random, on_the_limit);
    let mut text = Vec::new();
    for line in sheet.split_inclusive(|&byte| byte == b'\n') {
        if random.once_in(8) && text.len() < 40_000 {
            let length = random.pick(&[10, 11, 64, 255, 256, 257, 1_000, 4_096, 9_999]);
            let byte = random.pick(b"0179 -e\r\0\xff");
            text.extend(
                random.pick(&["", "wt 1 ", "op ", "lot A mus 3 10 500 ", "set", "end "]).bytes(),
            );
            text.extend(vec![byte; length]);
            if random.once_in(2) {
                text.extend(b" 1");
            }
            text.push(b'\n');
        }
        text.extend(line);
    }
    text
}

/// A good sheet with a few bytes changed, put in or left out, or with a part cut off.
fn spoiled_sheet(random: &mut Random, on_the_limit: &OnTheLimit) -> Vec<u8> {
    let mut text = sheet_text(random, on_the_limit);
    for _ in 0..random.between(1, 6) {
        if text.is_empty() {
            break;
        }
        let at = random.below(text.len());
        match random.below(8) {
            0 => text.truncate(at),
            1 | 2 => {
                text.remove(at);
            }
            3 | 4 => text.insert(at, odd_byte(random)),
            5 => text[at] ^= 1 << random.below(8),
            _ => text[at] = odd_byte(random),
        }
    }
    text
}

/// 65,530 to 65,540 bytes: a sheet with spaces, blank lines or a last long word around it.
fn long_text(random: &mut Random, on_the_limit: &OnTheLimit) -> Vec<u8> {
    let length = random.between(LONGEST_TEXT as i64 - 6, LONGEST_TEXT as i64 + 4) as usize;
    let sheet = sheet_text(random, on_the_limit);
    let byte = random.pick(b" \n\nx");
    let mut text = vec![byte; length.saturating_sub(sheet.len())];
    if byte == b'x' {
        text.pop();
        text.push(b'\n');
    }
    if random.once_in(2) {
        text.extend(sheet);
    } else {
        text.splice(0..0, sheet);
    }
    text
}
