//! A host of the trainer: reads a sheet, trains its palette for a console of 15-bit colours, writes the trained sheet.
//! It may be killed at any moment and taken up again from its state file, with the same result.

use std::ffi::OsString;
use std::fmt::{Arguments, Display};
use std::fs::{self, File};
use std::io::{self, stderr, stdin, stdout, ErrorKind, IsTerminal, Read, Write};
use std::path::{Path, PathBuf};
use std::process::ExitCode;

use dunkafeto::{checksum, console, saved_by_earlier_release, Job, Moment, RestoreError, Sheet, Trainer, MOST_BYTES};

const USE: &str = "usage: host [-o FILE] [--state FILE] [--every N] [--seed N] [SHEET]
Trains the palette of a fit sheet of edition 1 or 2 for a console of 15-bit colours and writes the trained sheet.
  SHEET         the sheet to read; without it, or with -, standard input
  -o FILE       where the trained sheet goes; without it, standard output
  --state FILE  save the run there and, if it is there already, go on from it;
                it is removed once the sheet is written
  --every N     save after every N draws, 1 or more (1000)
  --seed N      the seed of the draws, 0 to 18446744073709551615 (0)
Status: 0 done, 1 sheet or job refused, 2 wrong use, 3 state file refused, 4 a file cannot be read or written.";

/// Bytes of the state of the largest job.
const MOST_STATE: u64 = 75_856;

const REFUSED: u8 = 1;
const WRONG_USE: u8 = 2;
const BAD_STATE: u8 = 3;
const NO_FILE: u8 = 4;

/// The status that the program ends with, and what it says.
struct Failure(u8, String);

/// Says what was being done when a step failed.
trait Doing<T> {
    fn doing(self, status: u8, what: impl Display) -> Result<T, Failure>;
}

impl<T, E: Display> Doing<T> for Result<T, E> {
    fn doing(self, status: u8, what: impl Display) -> Result<T, Failure> {
        self.map_err(|why| Failure(status, format!("{what}: {why}")))
    }
}

struct Options {
    /// None: standard input.
    sheet: Option<PathBuf>,
    /// None: standard output.
    out: Option<PathBuf>,
    state: Option<PathBuf>,
    every: u64,
    seed: u64,
}

fn main() -> ExitCode {
    let words: Vec<OsString> = std::env::args_os().skip(1).collect();
    if words == ["-h"] || words == ["--help"] {
        println!("{USE}");
        return ExitCode::SUCCESS;
    }
    match options(words).and_then(|options| work(&options)) {
        Ok(()) => ExitCode::SUCCESS,
        Err(Failure(status, why)) => {
            say(format_args!("host: {why}\n"));
            ExitCode::from(status)
        }
    }
}

/// That nobody listens is no reason to end.
fn say(text: Arguments) {
    let _ = stderr().write_fmt(text);
}

fn wrong(what: &str, why: &str) -> Failure {
    Failure(WRONG_USE, format!("{what}: {why}\n{USE}"))
}

fn options(words: Vec<OsString>) -> Result<Options, Failure> {
    let mut options = Options { sheet: None, out: None, state: None, every: 1000, seed: 0 };
    let mut sheets = 0;
    let mut words = words.into_iter();
    while let Some(word) = words.next() {
        // a file's name need not be text, an option is
        let name = word.to_str().unwrap_or("");
        if !name.starts_with('-') || name == "-" {
            sheets += 1;
            options.sheet = (name != "-").then(|| word.into());
            continue;
        }
        let value = words.next().ok_or_else(|| wrong(name, "a value is missing"))?;
        let number =
            || value.to_str().and_then(|text| text.parse().ok()).ok_or_else(|| wrong(name, "no 64-bit number"));
        match name {
            "-o" => options.out = Some(value.into()),
            "--state" => options.state = Some(value.into()),
            "--every" => options.every = number()?,
            "--seed" => options.seed = number()?,
            _ => return Err(wrong(name, "no such option")),
        }
    }
    if sheets > 1 {
        return Err(wrong("the sheets", "one at a time"));
    }
    go_together(&options).map(|()| options)
}

fn go_together(options: &Options) -> Result<(), Failure> {
    if options.out.is_some() && options.out == options.state {
        return Err(wrong("sheet and state", "a file each"));
    }
    if options.every == 0 {
        return Err(wrong("--every", "not a number from 1 on"));
    }
    if options.out.is_none() && stdout().is_terminal() {
        return Err(wrong("a sheet is no text for a terminal", "name a file with -o"));
    }
    Ok(())
}

fn work(options: &Options) -> Result<(), Failure> {
    [&options.state, &options.out].into_iter().flatten().try_for_each(|path| spare_earlier(path))?;
    let (name, bytes) = read_sheet(options)?;
    let mut sheet = Sheet::read(&bytes).doing(REFUSED, name)?;
    let samples = sheet.tiles.samples();
    sheet.palette = train(options, sheet.job(&samples, options.seed), key(&bytes, options.seed))?;
    write_sheet(options, &sheet.write().doing(REFUSED, "the trained sheet")?)
}

/// Neither a file that is to be written nor the new file beside it may be an earlier release's state.
fn spare_earlier(path: &Path) -> Result<(), Failure> {
    [path, &fresh(path)].into_iter().try_for_each(|path| {
        // a pipe or a device is not read from: its other end may wait for the sheet
        let regular = fs::metadata(path).is_ok_and(|found| found.is_file());
        let begins = || File::open(path).and_then(|file| read_up_to(file, 8));
        let earlier = regular && begins().is_ok_and(|bytes| saved_by_earlier_release(&bytes));
        if earlier {
            Err(unusable(path, RestoreError::EarlierRelease))
        } else {
            Ok(())
        }
    })
}

/// Why a state file is refused, in the words of the host in C.
fn unusable(state: &Path, why: RestoreError) -> Failure {
    let left = if matches!(why, RestoreError::Refused(_)) { "" } else { "; it is left as it is" };
    Failure(BAD_STATE, format!("{}: {why}{left}", state.display()))
}

fn read_sheet(options: &Options) -> Result<(String, Vec<u8>), Failure> {
    // one byte more than a sheet has, to see that it is too large
    let room = MOST_BYTES as u64 + 1;
    let Some(path) = &options.sheet else {
        let bytes = read_up_to(stdin().lock(), room).doing(NO_FILE, "standard input")?;
        return Ok(("standard input".to_string(), bytes));
    };
    let name = path.display().to_string();
    let bytes = File::open(path).and_then(|file| read_up_to(file, room)).doing(NO_FILE, &name)?;
    Ok((name, bytes))
}

/// What a state belongs to: the sheet and all else that the result depends on. Another reduction would give another.
fn key(sheet: &[u8], seed: u64) -> u64 {
    checksum(&[sheet, &seed.to_le_bytes(), b"rgb555\0"].concat())
}

fn train(options: &Options, job: Job, key: u64) -> Result<Vec<[f32; 3]>, Failure> {
    let mut trainer = match resumed(options, job, key)? {
        Some(trainer) => trainer,
        None => Trainer::start(job).doing(REFUSED, "job")?,
    };
    while trainer.moment() != Moment::Finished {
        step(&mut trainer, options.every).doing(REFUSED, "job")?;
        show_progress(&trainer);
        if let Some(state) = &options.state {
            replace(state, &trainer.save(key)).doing(NO_FILE, state.display())?;
        }
    }
    trainer.result().doing(REFUSED, "job")
}

/// Up to `most` draws, or at a stop the hand-in of what the console shows.
fn step(trainer: &mut Trainer, most: u64) -> Result<(), dunkafeto::Refusal> {
    if trainer.moment() == Moment::Draws {
        return trainer.advance(most).map(drop);
    }
    let reduced: Vec<_> = trainer.working().iter().map(|&colour| console::reduced(colour)).collect();
    trainer.hand_in(&reduced).map(drop)
}

/// The run of the state file, where there is one.
fn resumed<'a>(options: &Options, job: Job<'a>, key: u64) -> Result<Option<Trainer<'a>>, Failure> {
    let Some(state) = &options.state else { return Ok(None) };
    let bytes = match File::open(state).and_then(|file| read_up_to(file, MOST_STATE + 1)) {
        Err(why) if why.kind() == ErrorKind::NotFound => return Ok(None),
        read => read.doing(NO_FILE, state.display())?,
    };
    let trainer = Trainer::restore(job, key, &bytes).map_err(|why| unusable(state, why))?;
    say(format_args!("resumed at draw {}\n", trainer.draws_made()));
    Ok(Some(trainer))
}

/// One line that is written again and again, for a person who watches.
fn show_progress(trainer: &Trainer) {
    if stderr().is_terminal() {
        let end = if trainer.moment() == Moment::Finished { "\n" } else { "" };
        let (stage, made, all) = (trainer.stage(), trainer.draws_made(), trainer.job().draws());
        say(format_args!("\r{stage:?}, draw {made} of {all}  {end}"));
    }
}

fn write_sheet(options: &Options, bytes: &[u8]) -> Result<(), Failure> {
    match &options.out {
        Some(path) => replace(path, bytes).doing(NO_FILE, path.display())?,
        None => stdout().write_all(bytes).and_then(|()| stdout().flush()).doing(NO_FILE, "standard output")?,
    }
    say(format_args!("checksum {:016x}\n", checksum(bytes)));
    if let Some(state) = &options.state {
        remove(state).doing(NO_FILE, state.display())?;
    }
    Ok(())
}

// ---- files

fn read_up_to(from: impl Read, most: u64) -> io::Result<Vec<u8>> {
    let mut bytes = Vec::new();
    from.take(most).read_to_end(&mut bytes)?;
    Ok(bytes)
}

/// The new file beside a file.
fn fresh(path: &Path) -> PathBuf {
    let mut name = path.as_os_str().to_owned();
    name.push(".new");
    name.into()
}

/// Puts bytes in the place of a file so that a kill or a power cut leaves the old one or the new one. A pipe or a device is
/// written to as it is.
fn replace(path: &Path, bytes: &[u8]) -> io::Result<()> {
    if fs::metadata(path).is_ok_and(|found| !found.is_file()) {
        return File::options().write(true).open(path)?.write_all(bytes);
    }
    let fresh = fresh(path);
    let mut file = File::create(&fresh)?;
    file.write_all(bytes)?;
    file.sync_all()?;
    fs::rename(fresh, path)?;
    sync_folder(path)
}

fn remove(path: &Path) -> io::Result<()> {
    for gone in [&fresh(path), path] {
        match fs::remove_file(gone) {
            Err(why) if why.kind() != ErrorKind::NotFound => return Err(why),
            _ => {}
        }
    }
    sync_folder(path)
}

/// Waits until the names in the file's folder are on the disk.
fn sync_folder(path: &Path) -> io::Result<()> {
    let folder = path.parent().filter(|folder| !folder.as_os_str().is_empty()).unwrap_or(Path::new("."));
    File::open(folder)?.sync_all()
}
