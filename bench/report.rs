//! The tables.

use std::collections::HashMap;

use crate::dearest::MEASURES;
use crate::inputs::{ASKED_COUNTS, COUNTS, OUTLINES};
use crate::measure::{instructions, stack_of, times, Measured, Table};
use crate::ours::{COPYING, STRAIGHT};
use crate::rows::{
    fresh_build, name_of, Row, Section, COPY, COSTLIEST, FILE_CONTAINS, FILE_READ, ISQRT, MOST,
    READERS, SEAM,
};

pub fn report(sections: &[Section], counts: &HashMap<String, f64>) {
    let rows: Vec<&Row> = sections.iter().flat_map(|section| &section.rows).collect();
    let (times, counts) = (times(&rows), instructions(&rows, counts));
    let stacks: HashMap<&str, usize> = rows
        .iter()
        .map(|row| (row.name.as_str(), stack_of(row)))
        .collect();
    goals(&rows, &times, &counts, &stacks);
    for section in sections {
        println!("## {}\n", section.title);
        if section.title == MOST {
            costliest(&times, &counts);
            continue;
        }
        if section.title == READERS {
            readers(&times, &counts, &stacks);
            continue;
        }
        println!(
            "| call | ours, ns | {0}, ns | ratio | ours, instructions | {0}, instructions | ratio | stack, bytes |",
            section.beside
        );
        println!("|---|--:|--:|--:|--:|--:|--:|--:|");
        for row in &section.rows {
            let (time, count) = (times[&row.name], counts[&row.name]);
            println!(
                "| {} | {:.1} | {:.1} | {:.2} | {:.0} | {:.0} | {:.2} | {} |",
                row.name,
                time.ours,
                time.beside,
                ratio(time),
                count.ours,
                count.beside,
                ratio(count),
                stacks[row.name.as_str()],
            );
        }
        println!();
    }
}

const ABOUT_MOST: &str = "\
`cost::costliest_outline`, at its own point in every call: all its edges are in range there, and no made region of as many corners has more. Each figure is followed by its
ratio to that of this outline. 'Dearest found' is what `make dearest` came to and left in `bench/dearest.txt`: outlines and points by chance, then
every change that makes a call dearer, for each side its own.
";

/// Each figure is followed by its ratio to that of the outline that costs most, with as many corners.
fn costliest(times: &Table, counts: &Table) {
    println!("{ABOUT_MOST}");
    println!("| contains | ours, ns | × | Rust, ns | × | ours, instructions | × | Rust, instructions | × |");
    println!("|---|--:|--:|--:|--:|--:|--:|--:|--:|");
    for corners in ASKED_COUNTS {
        let cells = |of: &Table, outline: &str, digits: usize| {
            let this = of[&name_of("contains", corners, outline)];
            let [ours, beside] = factors(of, corners, outline);
            format!(
                " {:.digits$} | {ours:.2} | {:.digits$} | {beside:.2} |",
                this.ours, this.beside
            )
        };
        let line = |outline: &str, one: bool| {
            // Outlines in turn are set up in the loops, which is more of their instructions than of their times.
            let count = match one {
                true => cells(counts, outline, 0),
                false => " | | | |".into(),
            };
            let name = name_of("contains", corners, outline);
            let what = name.trim_start_matches("contains, ");
            println!("| {what} |{}{count}", cells(times, outline, 1));
        };
        for (_, outline) in OUTLINES {
            line(outline, true);
        }
        line(COSTLIEST, true);
        for (measure, _, text) in MEASURES {
            line(text, measure.outlines() == 1);
        }
    }
    println!();
    verdict(times, counts);
}

/// Ours and theirs, in parts of the outline that costs most.
fn factors(of: &Table, corners: usize, outline: &str) -> [f64; 2] {
    let [this, most] =
        [outline, COSTLIEST].map(|outline| of[&name_of("contains", corners, outline)]);
    [this.ours / most.ours, this.beside / most.beside]
}

/// The largest factor of ours and of theirs, of these that were found.
fn largest(of: &Table, found: &[&str]) -> [f64; 2] {
    let all = ASKED_COUNTS.iter().flat_map(|&corners| {
        found
            .iter()
            .map(move |outline| factors(of, corners, outline))
    });
    all.fold([0.0; 2], |a, b| [a[0].max(b[0]), a[1].max(b[1])])
}

fn verdict(times: &Table, counts: &Table) {
    let text = |measure: usize| MEASURES[measure].2;
    let line = |what: &str, [ours, beside]: [f64; 2], why: &str| {
        let is = if ours < 1.005 { "is" } else { "is not" };
        println!("- {what} the outline {is} the worst case: what was found takes at most {ours:.2} times as much, of the Rust {beside:.2} times. {why}");
    };
    line(
        "By instructions",
        largest(counts, &[text(0)]),
        "In our call an edge in range costs most, and one that goes\n  west an instruction more than one that goes east; where all are in range they go west and east in turn. The loop's own are two more where the answer is yes.",
    );
    line(
        "By time, with one outline,",
        largest(times, &[text(0), text(1)]),
        "Asked at one point over and\n  over, its branches go the same way in every call, and the processor knows them.",
    );
    line(
        "By time, with outlines in turn,",
        largest(times, &[text(2)]),
        "No pattern is there long enough\n  to be known.",
    );
    line(
        "By time, with vectors of any size that is legal,",
        largest(times, &[text(3)]),
        "Products below the\n  least normal double take longer; how much goes by the processor. They come of legal vectors, which no fix has.",
    );
    let up = |found: &[&str]| (10.0 * largest(times, found)[0]).ceil() / 10.0;
    let [most, all] = [
        up(&[text(0), text(1), text(2)]),
        up(&MEASURES.map(|(_, _, text)| text)),
    ];
    println!("\nA planner takes the outline's instructions as they are. Its time wants a factor of {most:.1} on this processor, and of {all:.1} where vectors may have any size, with\nregions and code in the caches. Nothing proves that there is no more.\n");
}

const ABOUT_READERS: &str = "\
`region_file::read_straight`, which builds straight from the lent bytes and which the C doors call, beside `region_file::read`, which copies the corners out and then builds. In the archive
measured here each has two callers, as the doors are two: so the copying reader is a call, and of the straight one all is but the making of the empty region, and what either
answers is written whole. 'Then contains' is what a door does, in Rattle.
";

fn readers(times: &Table, counts: &Table, stacks: &HashMap<&str, usize>) {
    println!("{ABOUT_READERS}");
    println!("| call | straight, ns | copying, ns | ratio | straight, instructions | copying, instructions | ratio | straight, stack bytes | copying, stack bytes | less |");
    println!("|---|--:|--:|--:|--:|--:|--:|--:|--:|--:|");
    let reads = COUNTS.map(|count| (FILE_READ, count));
    for (call, count) in reads.into_iter().chain([(FILE_CONTAINS, 64)]) {
        let names = both_readers(call, count);
        let cells = |of: &Table, digits: usize| {
            let [straight, copying] = names.each_ref().map(|name| of[name].ours);
            let ratio = straight / copying;
            format!(" {straight:.digits$} | {copying:.digits$} | {ratio:.2} |")
        };
        let [straight, copying] = names.each_ref().map(|name| stacks[name.as_str()] as i64);
        println!(
            "| {} |{}{} {straight} | {copying} | {} |",
            names[0].trim_end_matches(", straight"),
            cells(times, 1),
            cells(counts, 0),
            copying - straight,
        );
    }
    println!();
}

/// The rows of the straight reader and of the copying one.
fn both_readers(call: &str, count: usize) -> [String; 2] {
    [STRAIGHT, COPYING].map(|reader| name_of(call, count, reader.name))
}

/// For whoever changes a call: a line for each of some rows.
pub fn some(sections: &[Section], text: &str) {
    let rows: Vec<&Row> = sections
        .iter()
        .flat_map(|section| &section.rows)
        .filter(|row| row.name.contains(text))
        .collect();
    let times = times(&rows);
    for row in rows {
        let time = times[&row.name];
        println!(
            "{}: {:.1} beside {:.1}, {:.2}",
            row.name,
            time.ours,
            time.beside,
            ratio(time)
        );
    }
}

fn ratio(of: Measured) -> f64 {
    of.ours / of.beside
}

fn goals(rows: &[&Row], times: &Table, counts: &Table, stacks: &HashMap<&str, usize>) {
    println!("## What it is to reach\n");
    println!("| what | at most | by time | by instructions | reached, by time |");
    println!("|---|--:|--:|--:|---|");
    let line = |what: &str, most: f64, by: &dyn Fn(&Table) -> f64| {
        let (time, count) = (by(times), by(counts));
        let reached = if time <= most { "yes" } else { "no" };
        println!("| {what} | {most} | {time:.2} | {count:.2} | {reached} |");
    };
    for (call, most) in [
        ("contains", 1.0),
        ("build", 1.2),
        ("arc first", 1.2),
        ("arc all", 1.2),
        ("great circle all", 1.2),
        ("parallel first", 1.5),
        ("parallel all", 1.5),
    ] {
        for (_, outline) in OUTLINES {
            let name = name_of(call, 64, outline);
            line(&format!("{name}, × the Rust"), most, &|of| {
                ratio(of[&name])
            });
        }
    }
    for edit in ["put", "insert, to 64 corners"] {
        let what = format!("{edit}, × a fresh build of 64");
        line(&what, 0.25, &|of| of[edit].ours / of[&fresh_build()].ours);
    }
    let contains = name_of("contains", 64, SEAM);
    for edit in ["turn", "hold"] {
        line(&format!("{edit}, × containment and one copy"), 1.0, &|of| {
            of[edit].ours / (of[&contains].ours + of[COPY].ours)
        });
    }
    let [straight, copying] = both_readers(FILE_READ, 64);
    line(&format!("{straight}, × the copying reader"), 0.8, &|of| {
        of[&straight].ours / of[&copying].ours
    });
    for row in rows.iter().filter(|row| row.name.starts_with("root")) {
        let most = if row.name.contains("hardware") {
            6.0
        } else {
            1.0
        };
        line(&row.name, most, &|of| ratio(of[&row.name]));
    }
    let whole = |row: &&&Row| row.name.starts_with("whole root") && row.name.contains(ISQRT);
    for row in rows.iter().filter(whole) {
        line(&row.name, 1.5, &|of| ratio(of[&row.name]));
    }
    let stack = |what: &str, most: usize, bytes: usize| {
        let reached = if bytes <= most { "yes" } else { "no" };
        println!("| stack of {what} | {most} | {bytes} | | {reached} |");
    };
    let less = "bytes; at most the copying reader's less 2560";
    let bound = stacks[copying.as_str()].saturating_sub(2560);
    stack(
        &format!("{straight}, {less}"),
        bound,
        stacks[straight.as_str()],
    );
    let (name, deepest) = stacks.iter().max_by_key(|stack| stack.1).unwrap();
    stack(
        &format!("any call, bytes; most has '{name}'"),
        32768,
        *deepest,
    );
    println!();
}
