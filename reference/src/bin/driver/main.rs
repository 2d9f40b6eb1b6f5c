//! Runs the proved programs beside the reference on generated input, and compares.

mod deciding;
mod draft;
mod hostile;
mod limits;
mod pairs;
mod process;
mod random;
mod tally;
mod typing;

use std::io;
use std::process::ExitCode;
use std::sync::Arc;
use std::time::Instant;

use limits::OnTheLimit;
use random::Random;

const USAGE: &str = "usage: driver --program PATH [--pairs] --seed N --count N
       driver --decide PATH --seed N --count N
A program with arguments is given as one word: 'PATH ARGUMENT'.";

/// Texts for one process.
const CHUNK: usize = 2_000;

struct Options {
    program: Vec<String>,
    decide: bool,
    pairs: bool,
    seed: u64,
    count: usize,
}

fn options() -> Option<Options> {
    let mut options =
        Options { program: Vec::new(), decide: false, pairs: false, seed: 1, count: 1_000 };
    let mut arguments = std::env::args().skip(1);
    while let Some(argument) = arguments.next() {
        match argument.as_str() {
            "--pairs" => options.pairs = true,
            "--program" | "--decide" => {
                options.decide = argument == "--decide";
                options.program = arguments.next()?.split(' ').map(String::from).collect();
            }
            "--seed" => options.seed = arguments.next()?.parse().ok()?,
            "--count" => options.count = arguments.next()?.parse().ok()?,
            _ => return None,
        }
    }
    (!options.program.is_empty()).then_some(options)
}

fn main() -> ExitCode {
    let Some(options) = options() else {
        eprintln!("{USAGE}");
        return ExitCode::from(2);
    };
    let started = Instant::now();
    let Options { program, decide, pairs, seed, count } = &options;
    let agreed = match (decide, pairs) {
        (true, _) => deciding::compare(program, *seed, *count),
        (false, true) => pairs::compare(program, *seed, *count),
        (false, false) => texts(program, *seed, *count),
    };
    let milliseconds = started.elapsed().as_millis();
    println!("seed {seed}, count {count}, {}.{} s", milliseconds / 1_000, milliseconds / 100 % 10);
    match agreed {
        Ok(true) => ExitCode::SUCCESS,
        Ok(false) => ExitCode::from(1),
        Err(error) => {
            eprintln!("{error}");
            ExitCode::from(1)
        }
    }
}

fn texts(program: &[String], seed: u64, count: usize) -> io::Result<bool> {
    let mut random = Random::new(seed);
    let on_the_limit = OnTheLimit::search(&mut random);
    let mut tally = tally::Tally::default();
    let mut left = count;
    while left > 0 {
        let chunk = left.min(CHUNK);
        left -= chunk;
        let text = |_| match random.below(4) {
            0 => hostile::hostile_text(&mut random, &on_the_limit),
            _ => typing::sheet_text(&mut random, &on_the_limit),
        };
        let texts: Arc<Vec<Vec<u8>>> = Arc::new((0..chunk).map(text).collect());
        let answers = process::transcripts(program, &texts)?;
        for (text, answer) in texts.iter().zip(&answers) {
            let (transcript, record) = reference::inspect(text);
            if transcript != *answer {
                show("text", text);
                show("the program prints", answer);
                show("the reference prints", &transcript);
                return Ok(false);
            }
            tally.count(text, &transcript, record.as_deref());
        }
    }
    tally.print();
    println!("{count} texts, {} bytes, every transcript the same", tally.bytes);
    Ok(true)
}

/// Prints bytes so that each can be told.
fn show(name: &str, bytes: &[u8]) {
    println!("--- {name}, {} bytes", bytes.len());
    for line in bytes.split_inclusive(|&byte| byte == b'\n') {
        println!("{}", line.escape_ascii());
    }
}
