//! Answers requests for the Rust's results, one line each, or makes requests from a seed. README.md has the forms.

use std::io::{BufRead, Write, stdin, stdout};
use std::process::ExitCode;

use answers::line::{Line, Words};
use answers::requests::{KINDS, Kind};
use terms::rng::Rng;

const USE: &str = "oracle                        answers the requests on standard input
oracle gen KIND SEED COUNT    writes requests of a kind
oracle list KIND SEED COUNT   writes each request's numbers and, on the next line, its answer's
oracle kinds                  writes the names of the kinds
SEED and COUNT are decimal.";

fn main() -> ExitCode {
    let args: Vec<String> = std::env::args().skip(1).collect();
    let args: Vec<&str> = args.iter().map(String::as_str).collect();
    let done = match args[..] {
        [] => answer_all(),
        ["kinds"] => write_all(KINDS.iter().map(|kind| kind.name.to_string())),
        [form @ ("gen" | "list"), name, seed, count] => make(form == "list", name, seed, count),
        _ => Err(USE.to_string()),
    };
    match done {
        Ok(()) => ExitCode::SUCCESS,
        Err(why) => {
            eprintln!("{why}");
            ExitCode::FAILURE
        }
    }
}

fn find(name: &str) -> Result<&'static Kind, String> {
    KINDS.iter().find(|kind| kind.name == name).ok_or_else(|| format!("no request is named {name}"))
}

fn answer(line: &str) -> Result<String, String> {
    let mut words = Words::of(line);
    let line = (find(words.next()?)?.answer)(&mut words)?;
    words.end()?;
    Ok(line.text().to_string())
}

/// A request that is not understood is answered by a line that begins with a question mark.
fn answer_all() -> Result<(), String> {
    let lines = stdin().lock().lines().map(|line| line.expect("standard input"));
    write_all(lines.map(|line| answer(&line).unwrap_or_else(|why| format!("? {why}"))))
}

fn make(list: bool, name: &str, seed: &str, count: &str) -> Result<(), String> {
    let kind = find(name)?;
    let number = |word: &str| word.parse::<u64>().map_err(|_| format!("{word} is no decimal number"));
    let (mut rng, count) = (Rng::new(number(seed)?), number(count)?);
    let made = (0..count).map(|_| {
        let request = (kind.make)(Line::named(name), &mut rng);
        if !list {
            return request.text().to_string();
        }
        let numbers = request.text()[name.len()..].trim_start();
        format!("{numbers}\n{}", answer(request.text()).expect("a request made here is answered"))
    });
    write_all(made)
}

fn write_all(lines: impl Iterator<Item = String>) -> Result<(), String> {
    let mut out = std::io::BufWriter::new(stdout().lock());
    for line in lines {
        if writeln!(out, "{line}").is_err() {
            return Ok(());
        }
    }
    out.flush().map_err(|e| e.to_string())
}
