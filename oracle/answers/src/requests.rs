//! The requests: each kind is answered, and made from a seed. README.md has their forms.

use std::collections::HashMap;

use terms::jobs::{self, Colours};
use terms::rng::Rng;
use terms::{Colour, Held, Job, Palette, TILE_SIZES, Tile, sizes_word};

use crate::line::{Line, Read, Words};
use crate::{probed, rust};

pub struct Kind {
    pub name: &'static str,
    pub answer: fn(&mut Words) -> Read<Line>,
    /// Adds the numbers of a request to its name.
    pub make: fn(Line, &mut Rng) -> Line,
}

pub const KINDS: [Kind; 22] = [
    kind("next", next, |line, rng| line.number(rng.bits()).number(rng.among(1, 8))),
    kind("shuffle", shuffle, |line, rng| line.number(rng.bits()).number(rng.among(0, 40))),
    kind("cycle", cycle, |line, rng| {
        let n = rng.among(1, 12);
        line.number(rng.bits()).number(n).number(rng.among(1, 4 * n))
    }),
    kind("tenth", tenth, |line, rng| line.number(rng.among(1, 1 << 14))),
    kind("narrow", narrow, |line, rng| line.wide(jobs::wide(rng))),
    kind("argmax", argmax, |line, rng| line.floats(&jobs::values(rng))),
    kind("argmin", argmin, |line, rng| line.floats(&jobs::values(rng))),
    kind("smallest_two", smallest_two, |line, rng| line.floats(&jobs::values(rng))),
    kind("sqdist", sqdist, |line, rng| {
        let weight = jobs::weight(rng);
        let colours = Colours::any(rng, 4.0).many(rng, 2, 4.0);
        line.float(weight).colours(&colours)
    }),
    kind("mean", mean, |line, rng| {
        let n = rng.among(0, 20);
        line.colours(&Colours::any(rng, 2.0).many(rng, n, 2.0))
    }),
    kind("nearest", nearest, near_request),
    kind("nearest_two", nearest_two, near_request),
    kind("distance", distance, |line, rng| {
        let case = Case::any(rng);
        line.float(case.weight).number(case.palette[0].len()).colours(&case.palette[0]).tile(&case.tiles[0])
    }),
    kind("best_fit", best_fit, fit_request),
    kind("best_two", best_two, fit_request),
    kind("nudge", nudge, |line, rng| {
        let alpha = rng.pick(&[0.3, 0.5, 0.1, 0.2]);
        let colours = Colours::any(rng, 2.0).many(rng, 2, 2.0);
        line.float(alpha).colours(&colours)
    }),
    kind("mse", mse, tiles_request),
    kind("assign", assign, tiles_request),
    kind("change", change, |line, rng| {
        let step = rng.below(3);
        let case = Case::any(rng);
        line.number(step).float(case.weight).sized_palette(&case.palette).tiles(&case.tiles, &case.hints)
    }),
    kind("group", group, group_request),
    kind("run", run, |line, rng| run_request(line, rng, 300)),
    kind("steps", steps, |line, rng| {
        let line = run_request(line, rng, 60);
        let calls = rng.among(1, 12);
        let allotment = |_| rng.pick(&[0, 1, 2, 3, 5, 11, 40, 300]) as u64;
        line.numbers((0..calls).map(allotment).collect::<Vec<_>>())
    }),
];

const fn kind(name: &'static str, answer: fn(&mut Words) -> Read<Line>, make: fn(Line, &mut Rng) -> Line) -> Kind {
    Kind { name, answer, make }
}

/// A palette with tiles and hints.
struct Case {
    weight: f32,
    palette: Palette,
    tiles: Vec<Tile>,
    hints: Vec<usize>,
}

impl Case {
    fn any(rng: &mut Rng) -> Self {
        let (size, colours) = (jobs::tile_size(rng), Colours::any(rng, 2.0));
        let (s, c, t) = (jobs::sixteen(rng), jobs::sixteen(rng), rng.among(1, 6));
        Case {
            weight: jobs::weight(rng),
            palette: jobs::palette(rng, s, c, &colours, 2.0),
            tiles: jobs::tiles(rng, size, t, &colours),
            hints: jobs::hints(rng, t, s),
        }
    }
}

fn next(words: &mut Words) -> Read<Line> {
    let (outputs, state) = probed(2.15).next(words.number()?, words.size()?);
    Ok(Line::default().numbers(outputs).number(state))
}

fn shuffle(words: &mut Words) -> Read<Line> {
    let (seed, n) = (words.number()?, words.count()?);
    let mut items: Vec<u32> = (0..n).collect();
    let state = probed(2.15).shuffle_state(seed, &mut items);
    Ok(Line::default().numbers(items).number(state))
}

fn cycle(words: &mut Words) -> Read<Line> {
    let (seed, n, draws) = (words.number()?, words.among(1 << 14)?, words.size()?);
    Ok(Line::default().numbers(probed(2.15).cycle(seed, n, draws)))
}

fn tenth(words: &mut Words) -> Read<Line> {
    Ok(Line::default().number(probed(2.15).base_iterations(words.size()?)))
}

fn narrow(words: &mut Words) -> Read<Line> {
    Ok(Line::default().float(words.wide()? as f32))
}

fn argmax(words: &mut Words) -> Read<Line> {
    Ok(Line::default().number(rust(2.15).argmax(&words.rest(Words::float)?)))
}

fn argmin(words: &mut Words) -> Read<Line> {
    Ok(Line::default().number(rust(2.15).argmin(&words.rest(Words::float)?)))
}

fn smallest_two(words: &mut Words) -> Read<Line> {
    let (index, least, second) = rust(2.15).smallest_two(&words.rest(Words::float)?);
    Ok(Line::default().number(index).float(least).float(second))
}

fn sqdist(words: &mut Words) -> Read<Line> {
    let (weight, p, q) = (words.float()?, words.colour()?, words.colour()?);
    Ok(Line::default().float(rust(weight).sqdist(p, q)))
}

fn mean(words: &mut Words) -> Read<Line> {
    let mean = rust(2.15).mean(&words.rest(Words::colour)?);
    Ok(mean.map_or(Line::default().word("none"), |colour| Line::default().floats(&colour)))
}

fn nearest(words: &mut Words) -> Read<Line> {
    let (weight, q, sub) = (words.float()?, words.colour()?, words.rest(Words::colour)?);
    let (index, dist) = rust(weight).nearest(&sub, q);
    Ok(Line::default().number(index).float(dist))
}

fn nearest_two(words: &mut Words) -> Read<Line> {
    let (weight, q, sub) = (words.float()?, words.colour()?, words.rest(Words::colour)?);
    let (index, dist, second) = rust(weight).nearest_two(&sub, q);
    Ok(Line::default().number(index).float(dist).float(second))
}

fn near_request(line: Line, rng: &mut Rng) -> Line {
    let (weight, colours) = (jobs::weight(rng), Colours::any(rng, 2.0));
    let n = jobs::sixteen(rng);
    line.float(weight).floats(&colours.one(rng, 2.0)).colours(&colours.many(rng, n, 2.0))
}

fn distance(words: &mut Words) -> Read<Line> {
    let (weight, c) = (words.float()?, words.among(16)?);
    let (sub, tile) = (words.many(c, Words::colour)?, words.tile()?);
    Ok(Line::default().float(probed(weight).distance(&sub, &tile)))
}

fn best_fit(words: &mut Words) -> Read<Line> {
    let (weight, hint, palette, tile) = (words.float()?, words.size()?, words.sized_palette()?, words.tile()?);
    let fit = rust(weight).best_fit(&palette, &tile, &[hint])[0];
    Ok(Line::default().number(fit.index).float(fit.dist).number(fit.hint))
}

fn best_two(words: &mut Words) -> Read<Line> {
    let (weight, hint, palette, tile) = (words.float()?, words.size()?, words.sized_palette()?, words.tile()?);
    let fit = rust(weight).best_two(&palette, &tile, &[hint])[0];
    Ok(Line::default().number(fit.index).float(fit.dist).float(fit.second).number(fit.hint))
}

fn fit_request(line: Line, rng: &mut Rng) -> Line {
    let (size, colours) = (jobs::tile_size(rng), Colours::any(rng, 2.0));
    let (s, c) = (jobs::sixteen(rng), jobs::sixteen(rng));
    let (weight, hint) = (jobs::weight(rng), jobs::hints(rng, 1, s)[0]);
    let palette = jobs::palette(rng, s, c, &colours, 2.0);
    line.float(weight).number(hint).sized_palette(&palette).tile(&jobs::full_tile(rng, size, &colours))
}

fn nudge(words: &mut Words) -> Read<Line> {
    let (alpha, old, target) = (words.float()?, words.colour()?, words.colour()?);
    let mut palette = vec![vec![old]];
    rust(2.15).nudge(&mut palette, &Tile::default(), 0, target, alpha);
    Ok(Line::default().palette(&palette))
}

fn mse(words: &mut Words) -> Read<Line> {
    let (weight, palette, (tiles, mut hints)) = (words.float()?, words.sized_palette()?, words.tiles()?);
    let error = rust(weight).mse(&palette, &tiles, &mut hints);
    Ok(Line::default().float(error).numbers(hints))
}

fn assign(words: &mut Words) -> Read<Line> {
    let (weight, palette, (tiles, mut hints)) = (words.float()?, words.sized_palette()?, words.tiles()?);
    let assigned = rust(weight).assign(&palette, &tiles, &mut hints);
    Ok(Line::default().numbers(assigned).numbers(hints))
}

fn tiles_request(line: Line, rng: &mut Rng) -> Line {
    let case = Case::any(rng);
    line.float(case.weight).sized_palette(&case.palette).tiles(&case.tiles, &case.hints)
}

fn change(words: &mut Words) -> Read<Line> {
    let (step, weight) = (words.number()?, words.float()?);
    let (palette, (tiles, mut hints)) = (words.sized_palette()?, words.tiles()?);
    let rust = probed(weight);
    let changed = match step {
        0 => rust.grow(&palette, &tiles, &mut hints),
        1 => rust.replace_weakest(&palette, &tiles, &mut hints),
        2 => rust.refine(&palette, &tiles, &mut hints),
        _ => return Err("a change is 0, 1 or 2".to_string()),
    };
    Ok(Line::default().palette(&changed).numbers(hints))
}

fn group(words: &mut Words) -> Read<Line> {
    let zero = if words.number()? == 0 { None } else { Some(words.count()?.to_be_bytes()) };
    let n = words.size()?;
    let pixels = words.many(n, |words| Ok((words.count()?.to_be_bytes(), words.colour()?)))?;
    terms::host::name(pixels.iter().rev().copied().collect::<HashMap<[u8; 4], Colour>>());
    let bytes: Vec<[u8; 4]> = pixels.iter().map(|pixel| pixel.0).collect();
    let grouped = rust(2.15).group(&bytes, zero);

    let mut line = Line::default().number(grouped.entries.len());
    for entry in &grouped.entries {
        line = line.number(u32::from_be_bytes(entry.bytes)).floats(&entry.oklab).number(entry.count);
    }
    let index = |i: &Option<usize>| i.unwrap_or(u32::MAX as usize);
    Ok(line.numbers(grouped.index.iter().map(index)))
}

fn group_request(line: Line, rng: &mut Rng) -> Line {
    let byte = rng.pick(&[1, 2, 255]);
    let colour = |rng: &mut Rng| [0; 4].map(|_| (rng.below(byte + 1)) as u8);
    let line = if rng.once_in(2) { line.number(0) } else { line.number(1).number(u32::from_be_bytes(colour(rng))) };
    let mut named: HashMap<[u8; 4], Colour> = HashMap::new();
    let size = jobs::tile_size(rng);
    let n = rng.among(0, size);
    (0..n).fold(line.number(n), |line, _| {
        let bytes = colour(rng);
        let oklab = *named.entry(bytes).or_insert_with(|| Colours::Random.one(rng, 2.0));
        line.number(u32::from_be_bytes(bytes)).floats(&oklab)
    })
}

/// Weight, S, C, seed, tiles with hints, samples, and what is handed in at the three stops.
fn run_words(words: &mut Words) -> Read<(Job, Vec<usize>, u64, Vec<Vec<Colour>>)> {
    let (weight, s, c) = (words.float()?, words.among(16)?, words.among(16)?);
    let (seed, (tiles, hints)) = (words.number()?, words.tiles()?);
    let samples = words.samples(&tiles)?;
    let reduced = words.many(3, |words| words.many(s * c, Words::colour))?;
    // no request names a tile size, and the Rust asks for none: the largest has room for whatever there is
    let job = Job { size: TILE_SIZES[1], s, c, weight, tiles, samples };
    Ok((job, hints, seed, reduced))
}

fn run_request(line: Line, rng: &mut Rng, most: usize) -> Line {
    let job = jobs::job(rng, most);
    let hints = jobs::hints(rng, job.tiles.len(), job.s);
    let line = line.float(job.weight).number(job.s).number(job.c).number(rng.bits());
    let line = line.tiles(&job.tiles, &hints).samples(&job.samples);
    (0..3).fold(line, |line, _| line.colours(&jobs::reduced(rng, job.s, job.c)))
}

fn run(words: &mut Words) -> Read<Line> {
    let (job, hints, seed, reduced) = run_words(words)?;
    let reduce = Box::new(move |stop: usize, place: usize, _| reduced[stop][place]);
    let ran = rust(job.weight).run(&job, &hints, seed, reduce);
    let stop = |line: Line, stop: &terms::Stop| line.palette(&stop.palette).numbers(stop.hints.iter().copied());
    let line = ran.stops.iter().fold(Line::default(), stop);
    Ok(line.palette(&ran.result).numbers(ran.hints))
}

fn steps(words: &mut Words) -> Read<Line> {
    let (job, hints, seed, reduced) = run_words(words)?;
    let allotments = words.rest(Words::number)?;
    let mut run = probed(job.weight).start(&job, &hints, seed);
    let mut line = held(Line::default(), &job, &run.held());
    for allotment in allotments {
        let stop = match run.held().words[1] {
            3 => Some(0),
            5 => Some(1),
            6 => Some(2),
            7 => break,
            _ => None,
        };
        match stop {
            Some(stop) => run.hand_in(&reduced[stop]),
            None => drop(run.advance(allotment)),
        }
        line = held(line, &job, &run.held());
    }
    Ok(line)
}

/// The record's seven words, the order, the hints, and both palettes with zeros where nothing is present.
fn held(line: Line, job: &Job, held: &Held) -> Line {
    let line = line.numbers(held.words).number(sizes_word(job.sizes()));
    let line = line.numbers(held.order.iter().copied()).numbers(held.hints.iter().copied());
    line.colours(&flat(&held.palette, job.s, job.c)).colours(&flat(&held.least, job.s, job.c))
}

/// A palette with the places for S·C colours, zeros where none is present.
pub fn flat(palette: &Palette, s: usize, c: usize) -> Vec<Colour> {
    let mut all = vec![[0.0; 3]; s * c];
    for (i, sub) in palette.iter().enumerate() {
        all[i * c..i * c + sub.len()].copy_from_slice(sub);
    }
    all
}
