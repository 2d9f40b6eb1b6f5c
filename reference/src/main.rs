//! Prints the transcript of a text on standard input, as `inspect` does.
//! With `--batch` it takes many texts: each is 8 decimal digits, its length, and then its bytes;
//! each transcript is printed in the same way. With `--decide` it takes lots with their errors and
//! prints what `decide` prints of them.

use std::io::{self, BufReader, BufWriter, Read, Write};

use reference::lists::answers;
use reference::text::LONGEST_TEXT;
use reference::transcript;

fn main() -> io::Result<()> {
    match std::env::args().nth(1).as_deref() {
        None => {
            let mut text = Vec::new();
            io::stdin().lock().take(LONGEST_TEXT as u64 + 1).read_to_end(&mut text)?;
            io::stdout().write_all(&transcript(&text))
        }
        Some("--batch") => batch(),
        Some("--decide") => {
            let input = io::read_to_string(io::stdin())?;
            io::stdout().write_all(answers(&input).as_bytes())
        }
        Some(_) => Err(io::Error::other("usage: reference [--batch | --decide]")),
    }
}

fn batch() -> io::Result<()> {
    let mut input = BufReader::new(io::stdin().lock());
    let mut output = BufWriter::new(io::stdout().lock());
    let mut digits = [0; 8];
    while input.read(&mut digits[..1])? == 1 {
        input.read_exact(&mut digits[1..])?;
        let length = std::str::from_utf8(&digits).ok().and_then(|word| word.parse().ok());
        let length: usize = length.ok_or_else(|| io::Error::other("a length is 8 digits"))?;
        let mut text = vec![0; length];
        input.read_exact(&mut text)?;
        let printed = transcript(&text);
        write!(output, "{:08}", printed.len())?;
        output.write_all(&printed)?;
    }
    output.flush()
}
