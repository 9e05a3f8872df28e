//! replay NAME LIST COUNT: replays a list of the Rust's answers with our functions, without the Rust. NAME says what the list has, COUNT
//! how many values there are to compare. The status is 0 where none differs, 1 where one does, 2 where the list is refused, 3 where there
//! is none to replay. ../README.md has more.

mod calls;
mod edges;
mod leaves;
mod list;
mod palette;
mod runs;

use std::process::ExitCode;

use list::{Case, Tally};

const USE: &str = "use: replay leaves|palette|runs|edges LIST COUNT";

fn main() -> ExitCode {
    let (case, bytes, count) = match read_arguments() {
        Ok(asked) => asked,
        Err(why) => {
            eprintln!("{why}");
            return ExitCode::from(3);
        }
    };
    match replayed(&bytes, case, count) {
        Ok(Tally { compared, differ: 0, .. }) => {
            println!("{} values, none differs", grouped(compared));
            ExitCode::SUCCESS
        }
        Ok(Tally { compared, differ, first }) => {
            let before = first.unwrap_or_default();
            println!("{} values, {} differ, the first before byte {before}", grouped(compared), grouped(differ));
            ExitCode::FAILURE
        }
        Err(why) => {
            println!("refused: {why}");
            ExitCode::from(2)
        }
    }
}

fn read_arguments() -> Result<(Case, Vec<u8>, u64), String> {
    let words: Vec<String> = std::env::args().skip(1).collect();
    let [name, path, count] = &words[..] else { return Err(USE.into()) };
    let case = match name.as_str() {
        "leaves" => leaves::case,
        "palette" => palette::case,
        "runs" => runs::case,
        "edges" => edges::case,
        _ => return Err(USE.into()),
    };
    let bytes = std::fs::read(path).map_err(|why| format!("{path}: {why}"))?;
    Ok((case, bytes, count.parse().map_err(|_| USE)?))
}

/// A whole list, of so many values.
fn replayed(bytes: &[u8], case: Case, count: u64) -> Result<Tally, String> {
    let tally = list::replay(bytes, case).map_err(|why| why.to_string())?;
    if tally.compared == count {
        Ok(tally)
    } else {
        Err(format!("{} values, where {} are recorded", grouped(tally.compared), grouped(count)))
    }
}

/// In decimal, with a comma before every three digits.
fn grouped(n: u64) -> String {
    if n < 1000 { n.to_string() } else { format!("{},{:03}", grouped(n / 1000), n % 1000) }
}
