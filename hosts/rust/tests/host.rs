//! The program `host`: killed and taken up again, its state file touched, its statuses.

mod common;

use std::fs;
use std::path::PathBuf;
use std::process::{Command, Output, Stdio};
use std::time::Duration;

use common::{saved_earlier, spoiled, Rng};
use dunkafeto::{checksum, console, RestoreError, Sheet, Stage, Tiles, Trainer, LARGE_TILE, SMALL_TILE};

/// A folder of the test's own, removed at its end.
struct Room(PathBuf);

impl Room {
    fn new(name: &str) -> Self {
        let room = PathBuf::from(env!("CARGO_TARGET_TMPDIR")).join(format!("{name}-{}", std::process::id()));
        fs::create_dir_all(&room).unwrap();
        Room(room)
    }

    fn file(&self, name: &str) -> PathBuf {
        self.0.join(name)
    }

    fn command(&self, words: &[&str]) -> Command {
        let mut command = Command::new(env!("CARGO_BIN_EXE_host"));
        command.current_dir(&self.0).args(words).stdin(Stdio::null());
        command
    }

    fn run(&self, words: &[&str]) -> Output {
        self.command(words).output().unwrap()
    }

    /// The state is refused in these words, and left; no sheet is written.
    fn refuses_state(&self, state: &[u8], words: &str) {
        fs::write(self.file("run"), state).unwrap();
        let said = self.run(&["in", "-o", "out", "--state", "run"]);
        assert_eq!(
            (said.status.code(), String::from_utf8(said.stderr).unwrap()),
            (Some(3), format!("host: run: {words}\n"))
        );
        assert!(fs::read(self.file("run")).unwrap() == state);
        assert!(!self.file("out").exists());
    }
}

impl Drop for Room {
    fn drop(&mut self) {
        let _ = fs::remove_dir_all(&self.0);
    }
}

fn sheet(t: usize, subpalettes: usize, colours_each: usize) -> Sheet {
    let mut rng = Rng(41);
    let mut tiles = Tiles::new(SMALL_TILE);
    for _ in 0..t {
        tiles.push((0..16).map(|_| (rng.colour(), 4)).collect::<Vec<_>>());
    }
    let palette = vec![[0.0; 3]; subpalettes * colours_each];
    Sheet { subpalettes, colours_each, weight: 2.15, palette, tiles }
}

/// Every second tile has 256 colours, the others one for all pixels.
fn large_sheet(t: usize, subpalettes: usize, colours_each: usize) -> Sheet {
    let mut rng = Rng(43);
    let mut tiles = Tiles::new(LARGE_TILE);
    for tile in 0..t {
        let (colours, count) = if tile % 2 == 0 { (256, 1) } else { (1, 256) };
        tiles.push((0..colours).map(|_| (rng.colour(), count)).collect::<Vec<_>>());
    }
    let palette = vec![[0.0; 3]; subpalettes * colours_each];
    Sheet { subpalettes, colours_each, weight: 2.15, palette, tiles }
}

/// The same sheet in edition 2.
fn in_edition_2(sheet: &Sheet) -> Sheet {
    let mut tiles = Tiles::new(LARGE_TILE);
    sheet.tiles.iter().for_each(|(colours, counts)| tiles.push(colours.iter().copied().zip(counts.iter().copied())));
    Sheet { tiles, ..sheet.clone() }
}

fn trained(mut sheet: Sheet, seed: u64) -> Vec<u8> {
    let samples = sheet.tiles.samples();
    let colours = Trainer::start(sheet.job(&samples, seed)).unwrap().finish(console::reduced).unwrap();
    sheet.palette = colours;
    sheet.write().unwrap()
}

#[test]
fn killed_at_any_moment_it_ends_the_same() {
    killed("killed", sheet(128, 16, 16));
}

#[test]
fn killed_at_any_moment_it_ends_the_same_in_edition_2() {
    killed("large", large_sheet(20, 16, 16));
}

fn killed(name: &str, sheet: Sheet) {
    let room = Room::new(name);
    fs::write(room.file("in"), sheet.write().unwrap()).unwrap();
    let expected = trained(sheet, 5);
    let words = ["in", "-o", "out", "--state", "state", "--every", "300", "--seed", "5"];
    let mut rng = Rng(42);
    let mut resumed = 0;
    for kills in 0.. {
        let mut host = room.command(&words).stderr(Stdio::piped()).spawn().unwrap();
        if kills < 8 {
            // half of them die at any moment, half once there is something to take up
            while kills % 2 == 0 && !room.file("state").exists() && host.try_wait().unwrap().is_none() {
                std::thread::sleep(Duration::from_millis(1));
            }
            std::thread::sleep(Duration::from_millis(rng.below(20) as u64));
            host.kill().unwrap();
        }
        let said = host.wait_with_output().unwrap();
        resumed += usize::from(String::from_utf8_lossy(&said.stderr).contains("resumed at draw"));
        if said.status.success() {
            break;
        }
        assert!(kills < 8, "{}", String::from_utf8_lossy(&said.stderr));
    }
    assert!(resumed > 0);
    assert!(fs::read(room.file("out")).unwrap() == expected);
    assert!(!room.file("state").exists() && !room.file("state.new").exists());
}

#[test]
fn standard_input_and_output() {
    let room = Room::new("standard");
    let sheet = sheet(4, 2, 3);
    fs::write(room.file("in"), sheet.write().unwrap()).unwrap();
    let said = room.command(&[]).stdin(fs::File::open(room.file("in")).unwrap()).output().unwrap();
    assert!(said.status.success());
    let expected = trained(sheet, 0);
    assert!(said.stdout == expected);
    assert_eq!(String::from_utf8_lossy(&said.stderr), format!("checksum {:016x}\n", dunkafeto::checksum(&expected)));
}

#[test]
fn a_pipe_is_written_to_and_stays() {
    let room = Room::new("pipe");
    let sheet = sheet(4, 2, 3);
    fs::write(room.file("in"), sheet.write().unwrap()).unwrap();
    assert!(Command::new("mkfifo").arg(room.file("pipe")).status().unwrap().success());
    let mut host = room.command(&["in", "-o", "pipe"]).stderr(Stdio::null()).spawn().unwrap();
    assert!(fs::read(room.file("pipe")).unwrap() == trained(sheet, 0));
    assert!(host.wait().unwrap().success());
    assert!(!fs::metadata(room.file("pipe")).unwrap().is_file());
}

#[test]
fn statuses() {
    let room = Room::new("statuses");
    let status = |words: &[&str]| room.run(words).status.code();
    let sheet = sheet(64, 4, 4);
    fs::write(room.file("in"), sheet.write().unwrap()).unwrap();
    fs::write(room.file("cut"), &sheet.write().unwrap()[..99]).unwrap();
    let mut empty = Tiles::new(SMALL_TILE);
    empty.push([]);
    fs::write(room.file("empty"), Sheet { tiles: empty, ..sheet }.write().unwrap()).unwrap();

    assert_eq!(status(&["in", "-o", "out"]), Some(0));
    assert_eq!(status(&["/dev/zero", "-o", "out"]), Some(1));
    assert_eq!(status(&["cut"]), Some(1));
    assert_eq!(status(&["empty"]), Some(1));
    for wrong in [
        &["--nothing", "1"][..],
        &["--every", "0"],
        &["--seed", "-1"],
        &["-o"],
        &["in", "in"],
        &["in", "-o", "x", "--state", "x"],
    ] {
        assert_eq!(status(wrong), Some(2), "{wrong:?}");
    }
    assert_eq!(status(&["absent"]), Some(4));
    assert_eq!(status(&["in", "-o", "absent/out"]), Some(4));
    assert!(String::from_utf8_lossy(&room.run(&["cut"]).stderr).contains("refused 13:"));
    assert!(String::from_utf8_lossy(&room.run(&["empty"]).stderr).contains("refused 1:"));
}

/// What it says of a sheet with bad colours, to the last byte: 4 subpalettes of 4 colours, tiles of 16.
#[test]
fn a_bad_sheet_s_colour_is_named() {
    let room = Room::new("named");
    for (bad, words) in [
        (&[12][..], "palette colour 12 (subpalette 3, colour 0)"),
        (&[9, 6], "palette colour 6 (subpalette 1, colour 2)"),
        (&[16, 15], "palette colour 15 (subpalette 3, colour 3)"),
        (&[16], "tile 0, colour 0"),
        (&[16 + 3 * 16 + 2], "tile 3, colour 2"),
        (&[16 + 64, 16 + 63], "tile 3, colour 15"),
    ] {
        fs::write(room.file("in"), spoiled(&sheet(8, 4, 4), bad)).unwrap();
        let said = room.run(&["in", "-o", "out"]);
        let expected = format!("host: in: refused 7: a colour's component is too large or not finite: {words}\n");
        assert_eq!((said.status.code(), String::from_utf8(said.stderr).unwrap()), (Some(1), expected));
        assert!(!room.file("out").exists());
    }
}

/// The state of a run on a sheet in stage 2, changed by a stranger who knows the key and the checksum.
fn state_of(sheet: &Sheet, change: impl FnOnce(&mut [u8])) -> Vec<u8> {
    let key = checksum(&[&sheet.write().unwrap()[..], &[0; 8], b"rgb555\0"].concat());
    let samples = sheet.tiles.samples();
    let mut trainer = Trainer::start(sheet.job(&samples, 0)).unwrap();
    while trainer.stage() != Stage::Replacing {
        trainer.advance(10).unwrap();
    }
    let mut bytes = trainer.save(key);
    let end = bytes.len() - 8;
    change(&mut bytes[..end]);
    let sum = checksum(&bytes[..end]);
    bytes[end..].copy_from_slice(&sum.to_le_bytes());
    bytes
}

/// What it says of a state with bad colours, to the last byte. The 16 colours of the palette and the 16 that are kept stand
/// before the record's 56 bytes, each has 12.
#[test]
fn a_bad_state_s_colour_is_named() {
    let room = Room::new("state");
    let sheet = sheet(8, 4, 4);
    fs::write(room.file("in"), sheet.write().unwrap()).unwrap();
    for (bad, words) in [
        (&[0][..], "working colour 0 (subpalette 0, colour 0)"),
        (&[9, 7], "working colour 7 (subpalette 1, colour 3)"),
        (&[16, 15], "working colour 15 (subpalette 3, colour 3)"),
        (&[16], "kept colour 0 (subpalette 0, colour 0)"),
        (&[25, 22], "kept colour 6 (subpalette 1, colour 2)"),
    ] {
        let bytes = state_of(&sheet, |bytes| {
            let colours = bytes.len() - 56 - 12 * 32;
            bad.iter().for_each(|at| bytes[colours + 12 * at..][..4].copy_from_slice(&f32::NAN.to_le_bytes()));
        });
        room.refuses_state(
            &bytes,
            &format!("refused 16: a working colour's component is too large or not finite: {words}"),
        );
    }
    fs::write(room.file("run"), state_of(&sheet, |_| {})).unwrap();
    assert!(room.run(&["in", "-o", "out", "--state", "run"]).status.success());
}

/// The last word of the record has S, C, T and n, the least significant byte first.
#[test]
fn a_state_that_says_other_sizes_is_refused() {
    let room = Room::new("sizes");
    let sheet = sheet(8, 4, 4);
    fs::write(room.file("in"), sheet.write().unwrap()).unwrap();
    for place in [2, 4, 6, 7] {
        let bytes = state_of(&sheet, |bytes| bytes[bytes.len() - place] ^= 1);
        room.refuses_state(&bytes, "refused 20: the run's record belongs to a job of other sizes");
    }
}

/// Sizes are not all that a state file knows of its sheet.
#[test]
fn the_state_of_another_sheet_is_refused_whatever_its_sizes() {
    let room = Room::new("another");
    let ours = sheet(8, 4, 4);
    let mut equal = ours.clone();
    equal.weight = 1.0;
    for other in [equal, sheet(9, 4, 4), sheet(8, 4, 5)] {
        fs::write(room.file("in"), other.write().unwrap()).unwrap();
        room.refuses_state(&state_of(&ours, |_| {}), "it belongs to another job or another seed; it is left as it is");
    }
}

/// One sheet in both editions has the same S, C, T, n, tiles, colours and counts, and is trained to the same colours.
#[test]
fn the_state_of_the_other_edition_is_refused() {
    let room = Room::new("editions");
    let first = sheet(8, 4, 4);
    let second = in_edition_2(&first);
    let (of_first, of_second) = (trained(first.clone(), 0), trained(second.clone(), 0));
    assert_eq!(Sheet::read(&of_second).unwrap(), in_edition_2(&Sheet::read(&of_first).unwrap()));
    for (ours, other, expected) in [(&first, &second, of_second), (&second, &first, of_first)] {
        fs::write(room.file("in"), other.write().unwrap()).unwrap();
        room.refuses_state(&state_of(ours, |_| {}), "it belongs to another job or another seed; it is left as it is");
        fs::write(room.file("run"), state_of(other, |_| {})).unwrap();
        let said = room.run(&["in", "-o", "out", "--state", "run"]);
        assert!(String::from_utf8_lossy(&said.stderr).starts_with("resumed at draw "));
        assert!(fs::read(room.file("out")).unwrap() == expected);
        fs::remove_file(room.file("out")).unwrap();
    }
}

/// Whatever the program is told to do with it: as its state, as the sheet's file, where the new file beside either would go.
#[test]
fn an_earlier_release_s_state_is_refused_and_left() {
    let room = Room::new("earlier");
    let (sheet, other) = (sheet(8, 4, 4), sheet(9, 4, 4));
    fs::write(room.file("in"), sheet.write().unwrap()).unwrap();
    fs::write(room.file("other"), other.write().unwrap()).unwrap();
    let whole = saved_earlier(&state_of(&sheet, |_| {}));
    for (file, words) in [
        ("run", &["in", "-o", "out", "--state", "run"][..]),
        ("run", &["in", "--state", "run"]),
        ("run", &["in", "-o", "out", "--state", "run", "--every", "1"]),
        ("run", &["in", "-o", "out", "--state", "run", "--seed", "1"]),
        ("run", &["other", "-o", "out", "--state", "run"]),
        ("run", &["absent", "-o", "out", "--state", "run"]),
        ("run", &["in", "-o", "./run", "--state", "run"]),
        ("run", &["in", "-o", "run"]),
        ("run", &["in", "-o", "run", "--state", "state"]),
        ("run.new", &["in", "-o", "out", "--state", "run"]),
        ("run.new", &["in", "-o", "run"]),
    ] {
        for len in [8, 100, whole.len()] {
            fs::write(room.file(file), &whole[..len]).unwrap();
            let said = room.run(words);
            let expected = format!("host: {file}: {}; it is left as it is\n", RestoreError::EarlierRelease);
            assert_eq!((said.status.code(), String::from_utf8(said.stderr).unwrap()), (Some(3), expected), "{words:?}");
            assert!(said.stdout.is_empty() && fs::read(room.file(file)).unwrap() == whole[..len]);
            assert_eq!(fs::read_dir(&room.0).unwrap().count(), 3, "{words:?}");
            fs::remove_file(room.file(file)).unwrap();
        }
    }
}

#[test]
fn a_touched_state_file_is_refused_and_left() {
    let room = Room::new("touched");
    let sheet = sheet(64, 4, 4);
    fs::write(room.file("in"), sheet.write().unwrap()).unwrap();
    let samples = sheet.tiles.samples();
    let mut trainer = Trainer::start(sheet.job(&samples, 0)).unwrap();
    trainer.advance(50).unwrap();
    let bytes = trainer.save(1); // the key of nothing that the program knows
    fs::write(room.file("state"), &bytes).unwrap();
    let said = room.run(&["in", "-o", "out", "--state", "state"]);
    assert_eq!(said.status.code(), Some(3));
    assert!(fs::read(room.file("state")).unwrap() == bytes);
    assert!(!room.file("out").exists());
}
