//! Compares our functions with the Rust, kind by kind, on cases made from a seed. README.md has its use.

mod call;
mod cases;
mod damage;
mod kinds;
mod lent;
mod ours;
mod reading;
mod saved;
mod sheet;
mod table;
mod tally;

use std::process::ExitCode;

use cases::Asked;
use kinds::{KINDS, Kind};
use tally::Tally;

const USE: &str = "use: compare [--seed N] [--scale N | --count N | --figures] [--case N] [--threads N] [KIND..]";

fn main() -> ExitCode {
    if std::env::args().nth(1).is_some_and(|word| word == saved::TAKE_UP) {
        return saved::take_up().map_or(ExitCode::FAILURE, |()| ExitCode::SUCCESS);
    }
    let (asked, kinds) = match read_arguments() {
        Ok(asked) => asked,
        Err(why) => {
            eprintln!("{why}\n{USE}");
            return ExitCode::from(2);
        }
    };
    let mut all = Tally::default();
    let mut good = true;
    for kind in kinds {
        let tally = cases::compare(kind, &asked);
        println!("{}: {} compared, {} differ", kind.name, tally.compared, tally.differ);
        tally.counted().iter().for_each(|line| println!("  {line}"));
        if let Some((case, first)) = &tally.first {
            println!("  first: {}", first.chars().take(1500).collect::<String>());
            println!("  again: oracle/compare --seed {} --case {case} '{}'", asked.seed, kind.name);
        }
        good &= tally.differ == 0 && tally.compared > 0;
        all.merge(tally);
    }
    println!("in all, seed {}: compared {}, differing {}", asked.seed, all.compared, all.differ);
    all.counted().iter().for_each(|line| println!("  {line}"));
    if good { ExitCode::SUCCESS } else { ExitCode::FAILURE }
}

fn read_arguments() -> Result<(Asked, Vec<&'static Kind>), String> {
    let threads = std::thread::available_parallelism().map_or(1, usize::from);
    let mut asked = Asked { seed: 1, scale: 1, count: None, figures: false, case: None, threads };
    let mut kinds = Vec::new();
    let mut words = std::env::args().skip(1);
    while let Some(word) = words.next() {
        let mut number = || {
            let value = words.next().and_then(|value| value.parse().ok());
            value.ok_or_else(|| format!("{word} takes a number"))
        };
        match word.as_str() {
            "--seed" => asked.seed = number()?,
            "--scale" => asked.scale = number()?,
            "--count" => asked.count = Some(number()?),
            "--figures" => asked.figures = true,
            "--case" => asked.case = Some(number()?),
            "--threads" => asked.threads = number()?.max(1) as usize,
            name => kinds.push(find(name)?),
        }
    }
    if kinds.is_empty() {
        kinds = KINDS.iter().flat_map(|group| group.iter()).collect();
    }
    Ok((asked, kinds))
}

fn find(name: &str) -> Result<&'static Kind, String> {
    let found = KINDS.iter().flat_map(|group| group.iter()).find(|kind| kind.name == name);
    found.ok_or_else(|| format!("no kind is named {name}"))
}
