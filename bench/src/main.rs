//! Measures our functions and the Rust's on the same inputs.
//!
//! bench stand FILE SIZE S C T N                  writes a run's states, where a round of replacing and where the final draws begin
//! bench count SIDE WORK TIMES FILE SIZE S C T N  does a work so many times, to be counted from outside; prints what it answers
//! bench time WORK FILE SIZE S C T N              prints the calls, the least time of each side for all of them in nanoseconds,
//!                                                both sides in turn; the answers have to be equal
//! bench programs INPUT OURS RUSTS                prints the least time of each program on the input, in turn
//!
//! SIZE is the tiles', 64 or 256.

mod job;
mod ours;
mod sides;

use std::fs;
use std::process::{Command, Stdio};
use std::time::Instant;

use foreign::shipped::Memory;
use sides::{Side, Work};

fn main() {
    let words: Vec<String> = std::env::args().skip(1).collect();
    let words: Vec<&str> = words.iter().map(String::as_str).collect();
    match words[..] {
        ["stand", file, ..] => stand(file, sizes(&words[2..])),
        ["count", side, work, times, file, ..] => {
            count(side, Work::named(work), times.parse().unwrap(), file, sizes(&words[5..]))
        }
        ["time", work, file, ..] => time(Work::named(work), file, sizes(&words[3..])),
        ["programs", input, ours, rusts] => programs(input, [ours, rusts]),
        _ => panic!("see the head of main.rs"),
    }
}

fn sizes(words: &[&str]) -> [usize; 5] {
    let sizes: Vec<usize> = words.iter().map(|word| word.parse().unwrap()).collect();
    sizes.try_into().unwrap()
}

/// The state before the draws of stage 2, and that before those of stage 4.
fn stand(file: &str, sizes: [usize; 5]) {
    let job = job::job(sizes);
    let lent = ours::Lent::new(&job);
    let mut memory = lent.memory();
    let mut bytes = Vec::new();
    let rounds = job.s + job.c - 2;
    lent.start(&mut memory, sides::SEED);
    lent.advance(&mut memory, (rounds * (job.samples.len() / 10)) as u64);
    assert_eq!(memory.record[1], 2);
    write(&mut bytes, &memory);
    lent.advance(&mut memory, u64::MAX);
    lent.hand_in(&mut memory, sides::reduce);
    assert_eq!(memory.record[1], 4);
    write(&mut bytes, &memory);
    fs::write(file, bytes).unwrap();
}

fn write(bytes: &mut Vec<u8>, memory: &Memory) {
    let words = memory.order.iter().chain(&memory.hints);
    words.for_each(|x| bytes.extend(x.to_le_bytes()));
    let floats = memory.palette.iter().chain(&memory.least);
    floats.for_each(|x| bytes.extend(x.to_le_bytes()));
    memory.record.iter().for_each(|x| bytes.extend(x.to_le_bytes()));
}

/// The state that a work starts from.
fn read(file: &str, work: Work, lent: &ours::Lent) -> Memory {
    let mut memory = lent.memory();
    if work == Work::Run {
        return memory;
    }
    let bytes = fs::read(file).unwrap();
    let half = bytes.len() / 2;
    let mut rest = &bytes[if work == Work::Round { 0 } else { half }..][..half];
    let words = memory.order.iter_mut().chain(&mut memory.hints);
    words.for_each(|x| *x = u32::from_le_bytes(next(&mut rest)));
    let floats = memory.palette.iter_mut().chain(&mut memory.least);
    floats.for_each(|x| *x = f32::from_le_bytes(next(&mut rest)));
    memory.record.iter_mut().for_each(|x| *x = u64::from_le_bytes(next(&mut rest)));
    memory
}

fn next<const N: usize>(rest: &mut &[u8]) -> [u8; N] {
    let (first, after) = rest.split_first_chunk().unwrap();
    *rest = after;
    *first
}

fn count(side: &str, work: Work, times: usize, file: &str, sizes: [usize; 5]) {
    let job = job::job(sizes);
    let from = read(file, work, &ours::Lent::new(&job));
    let mut side: Box<dyn Side> = match side {
        "ours" => Box::new(sides::ours(&job, &from)),
        _ => Box::new(sides::rusts(&job, &from)),
    };
    for _ in 0..times {
        println!("{:x}", side.work(work));
    }
}

fn time(work: Work, file: &str, sizes: [usize; 5]) {
    let job = job::job(sizes);
    let from = read(file, work, &ours::Lent::new(&job));
    let mut sides: [Box<dyn Side>; 2] = [Box::new(sides::ours(&job, &from)), Box::new(sides::rusts(&job, &from))];
    let [mut least, mut answers] = [[u64::MAX; 2]; 2];
    let begun = Instant::now();
    let mut turns = 0;
    while turns < 5 || begun.elapsed().as_secs_f32() < 3.0 {
        for (i, side) in sides.iter_mut().enumerate() {
            let now = Instant::now();
            answers[i] = side.work(work);
            least[i] = least[i].min(now.elapsed().as_nanos() as u64);
        }
        assert_eq!(answers[0], answers[1], "the two sides answer differently");
        turns += 1;
    }
    println!("{} {} {}", work.calls(&job), least[0], least[1]);
}

fn programs(input: &str, programs: [&str; 2]) {
    let mut least = [u128::MAX; 2];
    for _ in 0..40 {
        for (least, program) in least.iter_mut().zip(programs) {
            let input = fs::File::open(input).unwrap();
            let now = Instant::now();
            let ended = Command::new(program).stdin(input).stdout(Stdio::null()).status().unwrap();
            *least = (*least).min(now.elapsed().as_nanos());
            assert!(ended.success());
        }
    }
    println!("{} {}", least[0], least[1]);
}
