//! A plain program that does the proved program's job, made to be fast, with no proof: to compare replies and times with.
//! `rustc -O --edition 2021 bench/peer/main.rs -o bin/peer`; it reads a session and writes the replies. With the name of a
//! count list it writes the report on it after the session, and on standard error the seconds that the check took.
mod codes;
mod count;
mod cursor;
mod fields;
mod hub;
mod json;
mod ledger;
mod message;
mod nest;
mod numbers;
mod said;
mod setup;

use hub::{Hub, LONGEST_LINE};
use said::Said;
use std::io::{self, BufRead, BufReader, Write};
use std::process::ExitCode;
use std::time::Instant;

const LONGEST_HEAD: usize = 8_388_608;
/// What is said is written when it is so long.
const LONG: usize = 65_536;

/// Where the first line feed stands: eight bytes are looked at together, until one of these is it.
fn line_feed(bytes: &[u8]) -> Option<usize> {
    let mut at = 0;
    for eight in bytes.chunks_exact(8) {
        let apart = u64::from_le_bytes(eight.try_into().unwrap()) ^ 0x0a0a_0a0a_0a0a_0a0a;
        if apart.wrapping_sub(0x0101_0101_0101_0101) & !apart & 0x8080_8080_8080_8080 != 0 {
            break;
        }
        at += 8;
    }
    let rest = bytes[at..].iter().position(|&byte| byte == b'\n')?;
    Some(at + rest)
}

fn written(output: &mut impl Write, said: &mut Said) -> Result<(), &'static str> {
    output
        .write_all(&said.0)
        .and_then(|()| output.flush())
        .map_err(|_| "write")?;
    said.0.clear();
    Ok(())
}

/// Reads a line, of which so many bytes are kept, and tells whether a line feed ended it. Where more come, the rest is
/// skipped, or the fault of a line that is full is told at once. Before a read that may wait what is said is written.
fn read_line<R: io::Read>(
    input: &mut BufReader<R>,
    output: &mut impl Write,
    said: &mut Said,
    line: &mut Vec<u8>,
    most: usize,
    when_full: Result<(), &'static str>,
) -> Result<bool, &'static str> {
    line.clear();
    loop {
        if input.buffer().is_empty() {
            written(output, said)?;
        }
        let shown = input.fill_buf().map_err(|_| "read")?;
        let feed = line_feed(shown);
        let piece = &shown[..feed.unwrap_or(shown.len())];
        line.extend_from_slice(&piece[..piece.len().min(most - line.len())]);
        let taken = piece.len() + usize::from(feed.is_some());
        input.consume(taken);
        if feed.is_some() || taken == 0 {
            return Ok(feed.is_some());
        }
        if line.len() == most {
            when_full?;
        }
    }
}

fn without_return(line: &[u8]) -> &[u8] {
    line.strip_suffix(b"\r").unwrap_or(line)
}

/// The bytes before the first empty line, or all bytes.
fn read_head<R: io::Read>(input: &mut BufReader<R>) -> Result<Vec<u8>, &'static str> {
    let (mut head, mut line, mut said) = (Vec::new(), Vec::new(), Said::default());
    loop {
        let fed = read_line(
            input,
            &mut io::sink(),
            &mut said,
            &mut line,
            LONGEST_HEAD + 2,
            Err("head"),
        )?;
        if without_return(&line).is_empty() {
            return Ok(head);
        }
        if head.len() + line.len() + usize::from(fed) > LONGEST_HEAD {
            return Err("head");
        }
        head.append(&mut line);
        if !fed {
            return Ok(head);
        }
        head.push(b'\n');
    }
}

/// Answers each line of the session; the hub after it.
fn session(output: &mut impl Write) -> Result<Hub, String> {
    let mut input = BufReader::with_capacity(LONG, io::stdin().lock());
    let head = read_head(&mut input)?;
    let mut hub: Hub = setup::read(&head).map_err(|fault| format!("setup {fault}"))?;
    let (mut line, mut said) = (Vec::new(), Said::default());
    for number in 1.. {
        let fed = read_line(
            &mut input,
            output,
            &mut said,
            &mut line,
            LONGEST_LINE + 2,
            Ok(()),
        )?;
        let text = without_return(&line);
        if !text.is_empty() {
            hub.reply(number, text, &mut said);
        }
        if said.0.len() >= LONG || !fed {
            written(output, &mut said)?;
        }
        if !fed {
            break;
        }
    }
    Ok(hub)
}

/// Writes the report on a count list after the session.
fn count(list: &str) -> Result<(), String> {
    let hub = session(&mut io::sink())?;
    let bytes = std::fs::read(list).map_err(|_| "file")?;
    let rows = count::read(&hub, &bytes).map_err(|fault| format!("counts {fault}"))?;
    let began = Instant::now();
    let report = count::check(&hub, &rows);
    eprintln!("{:.6}", began.elapsed().as_secs_f64());
    let mut said = Said::default();
    count::tell(&hub.named, &report, &mut said);
    Ok(written(&mut io::stdout().lock(), &mut said)?)
}

fn main() -> ExitCode {
    let done = match std::env::args().nth(1) {
        Some(list) => count(&list),
        None => session(&mut io::stdout().lock()).map(|_| ()),
    };
    match done {
        Ok(()) => ExitCode::SUCCESS,
        Err(fault) => {
            eprintln!("fault {fault}");
            ExitCode::FAILURE
        }
    }
}
