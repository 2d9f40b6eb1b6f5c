//! A program that takes many texts: 8 digits of length before each, and the same of each answer.

use std::io::{self, BufReader, BufWriter, Read, Write};
use std::process::{Command, Stdio};
use std::sync::Arc;

/// The transcripts of the texts, by one process.
pub fn transcripts(program: &[String], texts: &Arc<Vec<Vec<u8>>>) -> io::Result<Vec<Vec<u8>>> {
    let mut child = Command::new(&program[0])
        .args(&program[1..])
        .stdin(Stdio::piped())
        .stdout(Stdio::piped())
        .spawn()?;
    let input = child.stdin.take().expect("piped");
    let sent = Arc::clone(texts);
    // a thread writes while this one reads, so that neither pipe fills up for good
    let writer = std::thread::spawn(move || -> io::Result<()> {
        let mut input = BufWriter::new(input);
        for text in sent.iter() {
            write!(input, "{:08}", text.len())?;
            input.write_all(text)?;
        }
        input.flush()
    });
    let mut output = BufReader::new(child.stdout.take().expect("piped"));
    let read = read_all(&mut output, texts.len());
    drop(output);
    let written = writer.join().expect("the writer ends");
    let status = child.wait()?;
    let printed = read?;
    written?;
    if !status.success() {
        return Err(io::Error::other(format!("{} ended with {status}", program[0])));
    }
    Ok(printed)
}

fn read_all(output: &mut impl Read, count: usize) -> io::Result<Vec<Vec<u8>>> {
    let mut printed = Vec::with_capacity(count);
    for _ in 0..count {
        let mut digits = [0; 8];
        output.read_exact(&mut digits)?;
        let length = std::str::from_utf8(&digits).ok().and_then(|word| word.parse().ok());
        let length: usize = length.ok_or_else(|| io::Error::other("a length is 8 digits"))?;
        let mut transcript = vec![0; length];
        output.read_exact(&mut transcript)?;
        printed.push(transcript);
    }
    match output.read(&mut [0])? {
        0 => Ok(printed),
        _ => Err(io::Error::other("more was printed than asked for")),
    }
}

/// What a program prints of one input.
pub fn answer(program: &[String], input: Vec<u8>) -> io::Result<Vec<u8>> {
    let mut child = Command::new(&program[0])
        .args(&program[1..])
        .stdin(Stdio::piped())
        .stdout(Stdio::piped())
        .spawn()?;
    let mut stdin = child.stdin.take().expect("piped");
    let writer = std::thread::spawn(move || stdin.write_all(&input));
    let output = child.wait_with_output()?;
    writer.join().expect("the writer ends")?;
    if !output.status.success() {
        return Err(io::Error::other(format!("{} ended with {}", program[0], output.status)));
    }
    Ok(output.stdout)
}
