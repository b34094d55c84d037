//! Containment that costs as much as can be found without a proof: outlines and points by chance, and then changed step by step while a call
//! costs more. `make dearest` writes what it found to bench/dearest.txt, a line each, and `make bench` measures those beside the outline that is
//! proved to have most edges in range.

use std::f64::consts::TAU;
use std::fmt::{Display, Formatter};
use std::hint::black_box;

use crate::callgrind;
use crate::inputs::{at, costliest, Asked, Draw, ASKED_COUNTS, ENTRIES};

const SEED: u64 = 1;
const STARTS: usize = 400;
const STEPS: usize = 1600;
/// Calls of one count, and passes over all points for one time, of which the shortest is taken.
const COUNTED: usize = 2;
const PASSES: usize = 5;
/// Cells of a turn, which corners stand on, and points between.
const CELLS: f64 = 256.0;

/// What a search goes by, what it may choose, and how the page calls it.
#[derive(Clone, Copy, PartialEq)]
pub enum Measure {
    Instructions,
    Time,
    InTurn,
    Tiny,
}

use Measure::*;

pub const MEASURES: [(Measure, &str, &str); 4] = [
    (
        Instructions,
        "instructions",
        "dearest found by instructions",
    ),
    (Time, "time", "dearest found by time, one outline"),
    (InTurn, "in-turn", "dearest found by time, outlines in turn"),
    (
        Tiny,
        "tiny",
        "dearest found by time, outlines in turn, vectors of any size",
    ),
];

impl Measure {
    /// Of more outlines than one each is asked 8 times in a row.
    pub fn outlines(self) -> usize {
        match self {
            InTurn | Tiny => ENTRIES / 8,
            _ => 1,
        }
    }
}

/// What a search may change. All that it makes is legal: a vector need not have a length of one, nor fit its longitude.
#[derive(Clone)]
pub struct Candidate {
    /// The cells of each corner's longitude and latitude.
    corners: Vec<[u8; 2]>,
    /// First and last cell of the points' longitudes, and of their latitudes; there a point is drawn for each call, or one for all.
    window: [u8; 4],
    /// Powers of two that corners' vectors, points' vectors and all longitudes are multiplied by.
    powers: [i32; 3],
}

pub struct Found {
    pub measure: Measure,
    pub side: String,
    pub candidate: Candidate,
}

fn cell(draw: &mut Draw) -> u8 {
    draw.below(256) as u8
}

fn powers(draw: &mut Draw) -> [i32; 3] {
    // Products of a normal, which has the square of the corners' power, and of a point: of the usual size, below the least normal double,
    // some of them, or with one factor that is below it.
    let few = [[0, 0], [-480, -80], [-500, -60], [0, -1030], [-515, -30]];
    let [corners, points] = few[draw.below(few.len() as u64) as usize];
    [corners, points, [0, 0, -1040][draw.below(3) as usize]]
}

impl Candidate {
    fn drawn(count: usize, measure: Measure, draw: &mut Draw) -> Candidate {
        let (west, kind) = (cell(draw), draw.below(5));
        let width = 1 + draw.below(127) as u8;
        let mut lon = cell(draw);
        let corners = (0..count)
            .map(|k| {
                let side = match kind {
                    0 => k as u64 % 2,
                    _ => draw.below(2),
                };
                lon = match kind {
                    // To and fro between two meridians, in turn or not.
                    0 | 1 => west.saturating_add(side as u8 * width),
                    // Nearly half a turn on, or back.
                    2 => lon.wrapping_add((117 + draw.below(22)) as u8),
                    // Anywhere.
                    _ => cell(draw),
                };
                [lon, cell(draw)]
            })
            .collect();
        let first = match kind {
            0 | 1 => west,
            _ => cell(draw),
        };
        let window = match draw.below(3) {
            0 => [0, 255, 0, 255],
            1 => [first, first.saturating_add(width - 1), 0, 255],
            _ => [first, first, 128, 128],
        };
        let powers = match measure {
            Tiny => powers(draw),
            _ => [0; 3],
        };
        Candidate {
            corners,
            window,
            powers,
        }
    }

    fn changed(&self, measure: Measure, draw: &mut Draw) -> Candidate {
        let mut next = self.clone();
        let k = draw.below(next.corners.len() as u64) as usize;
        match draw.below(10) {
            0 if measure == Tiny => next.powers = powers(draw),
            0 | 1 => {
                let lon = cell(draw);
                next.window[0] = lon;
                next.window[1] = lon.saturating_add(draw.below(128) as u8);
            }
            2 => {
                let lat = cell(draw);
                next.window[2] = lat;
                next.window[3] = lat.saturating_add(draw.below(128) as u8);
            }
            // One corner, or some in a row.
            3..=7 => next.corners[k] = [cell(draw), cell(draw)],
            8 => next.corners[k][1] = cell(draw),
            _ => {
                let end = next.corners.len().min(k + 8);
                for corner in &mut next.corners[k..end] {
                    *corner = [cell(draw), cell(draw)];
                }
            }
        }
        next
    }

    pub fn count(&self) -> usize {
        self.corners.len()
    }

    /// Where there are more outlines than one, each has the corners in an order of its own.
    pub fn asked(&self, measure: Measure, passes: usize) -> Asked {
        let [of_corners, of_points, of_lons] = self.powers.map(|power| f64::from(power).exp2());
        let place = |lon: f64, lat: f64, of: f64| {
            let [x, y, z, lon, lat] = at(TAU * lon / CELLS, 3.0 * lat / CELLS - 1.5);
            [x * of, y * of, z * of, lon * of_lons, lat]
        };
        let (mut draw, mut cells) = (Draw(SEED), self.corners.clone());
        let outlines = (0..measure.outlines())
            .map(|_| {
                let corners: Vec<f64> = cells
                    .iter()
                    .flat_map(|&[lon, lat]| place(lon.into(), lat.into(), of_corners))
                    .collect();
                for k in 1..cells.len() {
                    cells.swap(k, draw.below(k as u64 + 1) as usize);
                }
                corners
            })
            .collect();
        let [west, east, south, north] = self.window.map(f64::from);
        let mut points: Vec<f64> = (0..passes * ENTRIES)
            .flat_map(|_| {
                let lon = draw.between(west + 0.25, east + 0.75);
                place(lon, draw.between(south, north + 1.0), of_points)
            })
            .collect();
        // No mean is above the most of one point.
        if measure == Instructions {
            points = points[..5].repeat(ENTRIES);
        }
        Asked::new(outlines, points)
    }
}

// A line of the file: measure, side, the window's four cells, the three powers, then four digits for each corner.

impl Display for Found {
    fn fmt(&self, f: &mut Formatter) -> std::fmt::Result {
        let Candidate {
            corners,
            window,
            powers,
        } = &self.candidate;
        let (_, measure, _) = MEASURES[self.measure as usize];
        write!(f, "{measure} {}", self.side)?;
        for cell in window {
            write!(f, " {cell}")?;
        }
        for power in powers {
            write!(f, " {power}")?;
        }
        write!(f, " ")?;
        for [lon, lat] in corners {
            write!(f, "{lon:02x}{lat:02x}")?;
        }
        Ok(())
    }
}

impl Found {
    fn read(line: &str) -> Found {
        let words: Vec<&str> = line.split(' ').collect();
        let cell_at = |at: usize| u8::from_str_radix(&words[9][at..at + 2], 16).unwrap();
        Found {
            measure: MEASURES.iter().find(|m| m.1 == words[0]).unwrap().0,
            side: words[1].into(),
            candidate: Candidate {
                corners: (0..words[9].len() / 4)
                    .map(|k| [cell_at(4 * k), cell_at(4 * k + 2)])
                    .collect(),
                window: [2, 3, 4, 5].map(|k| words[k].parse().unwrap()),
                powers: [6, 7, 8].map(|k| words[k].parse().unwrap()),
            },
        }
    }
}

pub fn found() -> Vec<Found> {
    include_str!("dearest.txt")
        .lines()
        .map(Found::read)
        .collect()
}

// The search

/// The dearest of some drawn by chance, and from there on every change that makes it dearer.
fn search(count: usize, measure: Measure, cost: &mut dyn FnMut(&Asked) -> f64) -> (Candidate, f64) {
    let mut draw = Draw(SEED);
    let mut best: Option<(Candidate, f64)> = None;
    for step in 0..STARTS + STEPS {
        let next = match &best {
            Some((best, _)) if step >= STARTS => best.changed(measure, &mut draw),
            _ => Candidate::drawn(count, measure, &mut draw),
        };
        let asked = next.asked(measure, PASSES);
        let dearest = best.as_ref().map_or(0.0, |best| best.1);
        let mut of_next = cost(&asked);
        // Whatever else the machine does makes a time longer: a second look.
        if of_next > dearest {
            of_next = of_next.min(cost(&asked));
        }
        if of_next > dearest {
            best = Some((next, of_next));
        }
    }
    best.unwrap()
}

extern "C" {
    fn clock_gettime(clock: i32, time: *mut [i64; 2]) -> i32;
}

/// Nanoseconds that this thread has had a processor, as Linux counts them: others may run beside a search.
fn now() -> i64 {
    const CLOCK_THREAD_CPUTIME_ID: i32 = 3;
    let mut time = [0; 2];
    assert_eq!(
        unsafe { clock_gettime(CLOCK_THREAD_CPUTIME_ID, &mut time) },
        0
    );
    1_000_000_000 * time[0] + time[1]
}

fn time(run: &dyn Fn(usize) -> u64) -> f64 {
    (0..PASSES)
        .map(|_| {
            let start = now();
            black_box(run(black_box(ENTRIES)));
            (now() - start) as f64 / ENTRIES as f64
        })
        .fold(f64::INFINITY, f64::min)
}

/// Of the file that callgrind has just written, whose names it numbers.
fn count(prefix: &str, number: &mut usize, run: &dyn Fn(usize) -> u64) -> f64 {
    callgrind::counted("dearest", || run(COUNTED));
    *number += 1;
    let path = format!("{prefix}.{number}");
    let text = std::fs::read_to_string(&path).unwrap();
    std::fs::remove_file(path).unwrap();
    let summary = text.lines().find_map(|line| line.strip_prefix("summary: "));
    summary.unwrap().parse::<f64>().unwrap() / COUNTED as f64
}

/// With the prefix of callgrind's files by instructions, and by time without one.
pub fn find(prefix: Option<&str>) {
    eprintln!("seed {SEED}: {STARTS} outlines by chance and {STEPS} changes for each line");
    let mut number = 0;
    for (measure, _, text) in MEASURES {
        if prefix.is_some() != (measure == Instructions) {
            continue;
        }
        for side in ["ours", "beside"] {
            for corners in ASKED_COUNTS {
                let mut cost = |asked: &Asked| {
                    let run = |n: usize| asked.run(side, n);
                    match prefix {
                        Some(prefix) => count(prefix, &mut number, &run),
                        None => time(&run),
                    }
                };
                let most = cost(&costliest(corners));
                let (candidate, of) = search(corners, measure, &mut cost);
                eprintln!(
                    "{text}, {side}, {corners} corners: {of:.1} beside {most:.1}, {:.3}",
                    of / most
                );
                let found = Found {
                    measure,
                    side: side.into(),
                    candidate,
                };
                println!("{found}");
            }
        }
    }
}
