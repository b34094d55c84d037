//! Times, instructions and stacks of rows.

use std::collections::HashMap;
use std::hint::black_box;
use std::time::Instant;

use crate::inputs::ENTRIES;
use crate::rows::{Beside, Row, Run, Section};
use crate::{callgrind, stack};

const ROUNDS: usize = 15;
/// Nanoseconds that one measurement takes at least.
const SHORTEST: f64 = 1e6;
/// Calls whose instructions are counted.
const COUNTED: usize = 64;

/// For a call: ours, and what stands beside it.
#[derive(Clone, Copy)]
pub struct Measured {
    pub ours: f64,
    pub beside: f64,
}

/// By the names of rows.
pub type Table = HashMap<String, Measured>;

pub fn compare(sections: &[Section]) {
    for row in sections.iter().flat_map(|section| &section.rows) {
        let theirs = match (&row.check, &row.beside) {
            (Some(check), _) => check,
            (None, Beside::Run(run)) => run,
            (None, Beside::Row(_)) => continue,
        };
        let (ours, theirs) = ((row.ours)(ENTRIES), theirs(ENTRIES));
        assert_eq!(
            ours, theirs,
            "the two sides of '{}' answer differently",
            row.name
        );
    }
}

// Instructions

pub fn count(sections: &[Section]) {
    for row in sections.iter().flat_map(|section| &section.rows) {
        let side = |which: &str, run: &Run| {
            for calls in [COUNTED, 2 * COUNTED] {
                callgrind::counted(&format!("{which} {calls} {}", row.name), || run(calls));
            }
        };
        side("ours", &row.ours);
        if let Beside::Run(run) = &row.beside {
            side("beside", run);
        }
    }
}

/// Instructions of a call, by what as many calls again add. A line has a number, a side, how many calls, and the row's name.
pub fn read_counts(path: &str) -> HashMap<String, f64> {
    let text = std::fs::read_to_string(path).unwrap();
    let mut counts = HashMap::new();
    for line in text.lines() {
        let words: Vec<&str> = line.splitn(4, ' ').collect();
        let [number, side, calls, name] = words.as_slice() else {
            continue;
        };
        let sign = if *calls == COUNTED.to_string() {
            -1.0
        } else {
            1.0
        };
        let number: f64 = number.parse().unwrap();
        *counts.entry(format!("{side} {name}")).or_insert(0.0) += sign * number / COUNTED as f64;
    }
    counts
}

pub fn instructions(rows: &[&Row], counts: &HashMap<String, f64>) -> Table {
    let of = |side: &str, name: &str| {
        counts
            .get(&format!("{side} {name}"))
            .copied()
            .unwrap_or(f64::NAN)
    };
    rows.iter()
        .map(|row| {
            let beside = match &row.beside {
                Beside::Run(_) => of("beside", &row.name),
                Beside::Row(other) => of("ours", other),
            };
            (
                row.name.clone(),
                Measured {
                    ours: of("ours", &row.name),
                    beside,
                },
            )
        })
        .collect()
}

// Times

/// Nanoseconds for a call.
fn time(run: &Run, repeats: usize) -> f64 {
    let start = Instant::now();
    for _ in 0..repeats {
        black_box(run(black_box(ENTRIES)));
    }
    start.elapsed().as_nanos() as f64 / (repeats * ENTRIES) as f64
}

fn repeats(run: &Run) -> usize {
    ((SHORTEST / (time(run, 1) * ENTRIES as f64)).ceil() as usize).max(1)
}

fn median(times: &mut [f64]) -> f64 {
    times.sort_by(f64::total_cmp);
    times.get(times.len() / 2).copied().unwrap_or(f64::NAN)
}

pub fn times(rows: &[&Row]) -> Table {
    let sides: Vec<Vec<(&Run, usize)>> = rows
        .iter()
        .map(|row| match &row.beside {
            Beside::Run(run) => vec![(&row.ours, repeats(&row.ours)), (run, repeats(run))],
            Beside::Row(_) => vec![(&row.ours, repeats(&row.ours))],
        })
        .collect();
    let mut measured = vec![[Vec::new(), Vec::new()]; rows.len()];
    for round in 0..ROUNDS {
        for (sides, measured) in sides.iter().zip(&mut measured) {
            // Which side is first goes to and fro.
            for side in [round % 2, 1 - round % 2] {
                if let Some((run, repeats)) = sides.get(side) {
                    measured[side].push(time(run, *repeats));
                }
            }
        }
    }
    let mut medians: Table = rows
        .iter()
        .zip(&mut measured)
        .map(|(row, [ours, beside])| {
            (
                row.name.clone(),
                Measured {
                    ours: median(ours),
                    beside: median(beside),
                },
            )
        })
        .collect();
    for row in rows {
        if let Beside::Row(other) = &row.beside {
            let beside = medians.get(other).map_or(f64::NAN, |of| of.ours);
            medians
                .entry(row.name.clone())
                .and_modify(|of| of.beside = beside);
        }
    }
    medians
}

// Stacks

/// Bytes of stack that a call adds to its caller's own.
pub fn stack_of(row: &Row) -> usize {
    let depth = |run: &Run| {
        stack::depth(&mut || {
            black_box(run(1));
        })
    };
    let own = match &row.idle {
        Some(idle) => depth(idle),
        None => stack::depth(&mut || {}),
    };
    depth(&row.ours).saturating_sub(own)
}
