//! The rows of the tables: a run of ours, and what stands beside it.

use std::hint::black_box;

use crate::dearest::{self, MEASURES};
use crate::inputs::{self, region_of, Asked, Case, ASKED_COUNTS, COUNTS, OUTLINES};
use crate::ours::*;
use crate::upstream_loops as theirs;

/// Makes that many calls and answers the checksum.
pub type Run = Box<dyn Fn(usize) -> u64>;

pub enum Beside {
    Run(Run),
    /// Another row's call of ours.
    Row(String),
}

pub struct Row {
    pub name: String,
    pub ours: Run,
    pub beside: Beside,
    /// What a run of ours has to answer, where that is not what stands beside it.
    pub check: Option<Run>,
    /// The caller's own part of the stack, which is not the call's.
    pub idle: Option<Run>,
}

pub struct Section {
    pub title: &'static str,
    pub beside: &'static str,
    pub rows: Vec<Row>,
}

/// A count of corners, an outline's name, and both sides' region with their questions.
type Named = (usize, &'static str, &'static Case);

pub const SEAM: &str = OUTLINES[1].1;
/// The section of the outline that costs most, which has a table of its own.
pub const MOST: &str = "The outline that costs most";
pub const COSTLIEST: &str = "the outline that costs most, at its point";
/// The section of the two readers, which has a table of its own.
pub const READERS: &str = "The two readers";
pub const FILE_READ: &str = "file read";
pub const FILE_CONTAINS: &str = "file read, then contains";
pub const COPY: &str = "one copy of a region, by the C library";
const REGION_BYTES: usize = 64 * 40 + 64 * 24 + 16;

pub fn name_of(call: &str, count: usize, outline: &str) -> String {
    let s = if count == 1 { "" } else { "s" };
    format!("{call}, {count} corner{s}, {outline}")
}

pub fn fresh_build() -> String {
    name_of("build", 64, SEAM)
}

pub fn sections() -> Vec<Section> {
    let cases: Vec<Named> = OUTLINES
        .iter()
        .flat_map(|&(outline, text)| {
            COUNTS.map(|count| (count, text, leaked(inputs::case(outline, count))))
        })
        .collect();
    let full = cases
        .iter()
        .find(|case| case.0 == 64 && case.1 == SEAM)
        .unwrap()
        .2;
    vec![
        queries(&cases),
        costliest(),
        counting(full),
        edits(full),
        files(full),
        readers(&cases, full),
        roots(),
        whole_roots(),
        zones_and_cones(&cases),
    ]
}

/// The rows last as long as the program.
fn leaked<T>(value: T) -> &'static T {
    Box::leak(Box::new(value))
}

fn row(name: &str, ours: Run, beside: Run) -> Row {
    Row {
        name: name.into(),
        ours,
        beside: Beside::Run(beside),
        check: None,
        idle: None,
    }
}

impl Row {
    fn by_region(mut self, case: &'static Case) -> Row {
        self.idle = Some(Box::new(move |n| {
            case.region
                .entries(bench_idle_region, &case.points[..5 * n])
        }));
        self
    }

    fn by_corners(mut self, case: &'static Case) -> Row {
        self.idle = Some(Box::new(move |n| {
            two(
                bench_idle_corners,
                &case.region.corners,
                &case.moved[..5 * n],
            )
        }));
        self
    }
}

fn queries(cases: &[Named]) -> Section {
    type Rows = fn(&str, &'static Case) -> Row;
    let calls: [(&str, Rows); 7] = [
        ("build", |name, case| {
            row(
                name,
                Box::new(move |n| two(bench_build, &case.region.corners, &case.moved[..5 * n])),
                Box::new(move |n| theirs::build(&case.region.corners, &case.moved[..5 * n])),
            )
            .by_corners(case)
        }),
        ("contains", |name, case| {
            row(
                name,
                Box::new(move |n| case.region.entries(bench_contains, &case.points[..5 * n])),
                Box::new(move |n| theirs::contains(&case.polygon, &case.points[..5 * n])),
            )
            .by_region(case)
        }),
        ("arc first", |name, case| {
            row(
                name,
                Box::new(move |n| {
                    case.region
                        .arcs(bench_arc_first, &case.near[..5 * n], &case.ends[..5 * n])
                }),
                Box::new(move |n| {
                    theirs::arc_first(&case.polygon, &case.near[..5 * n], &case.ends[..5 * n])
                }),
            )
            .by_region(case)
        }),
        ("arc all", |name, case| {
            row(
                name,
                Box::new(move |n| {
                    case.region
                        .arcs(bench_arc_all, &case.near[..5 * n], &case.ends[..5 * n])
                }),
                Box::new(move |n| {
                    theirs::arc_all(&case.polygon, &case.near[..5 * n], &case.ends[..5 * n])
                }),
            )
            .by_region(case)
        }),
        ("great circle all", |name, case| {
            row(
                name,
                Box::new(move |n| {
                    case.region
                        .entries(bench_circle_all, &case.circles[..3 * n])
                }),
                Box::new(move |n| theirs::circle_all(&case.polygon, &case.circles[..3 * n])),
            )
            .by_region(case)
        }),
        ("parallel first", |name, case| {
            row(
                name,
                Box::new(move |n| {
                    case.region
                        .entries(bench_parallel_first, &case.parallels[..3 * n])
                }),
                Box::new(move |n| theirs::parallel_first(&case.polygon, &case.parallels[..3 * n])),
            )
            .by_region(case)
        }),
        ("parallel all", |name, case| {
            row(
                name,
                Box::new(move |n| {
                    case.region
                        .entries(bench_parallel_all, &case.parallels[..3 * n])
                }),
                Box::new(move |n| theirs::parallel_all(&case.polygon, &case.parallels[..3 * n])),
            )
            .by_region(case)
        }),
    ];
    let rows = calls
        .iter()
        .flat_map(|(call, make)| {
            cases
                .iter()
                .map(move |&(count, outline, case)| make(&name_of(call, count, outline), case))
        })
        .collect();
    Section {
        title: "Regions",
        beside: "Rust",
        rows,
    }
}

/// Each side of a search's rows has what was found for it.
fn costliest() -> Section {
    let asked_row = |name: String, ours: &'static Asked, beside: &'static Asked| Row {
        check: Some(Box::new(|n| ours.run("beside", n))),
        idle: Some(Box::new(|n| ours.idle(n))),
        ..row(
            &name,
            Box::new(|n| ours.run("ours", n)),
            Box::new(|n| beside.run("beside", n)),
        )
    };
    let mut rows = Vec::new();
    for count in ASKED_COUNTS {
        let most = leaked(inputs::costliest(count));
        rows.push(asked_row(name_of("contains", count, COSTLIEST), most, most));
    }
    let found = dearest::found();
    for (measure, _, text) in MEASURES {
        for count in ASKED_COUNTS {
            let of = |side: &str| {
                found
                    .iter()
                    .find(|found| {
                        found.measure == measure
                            && found.side == side
                            && found.candidate.count() == count
                    })
                    .map(|found| leaked(found.candidate.asked(measure, 16)))
            };
            if let (Some(ours), Some(beside)) = (of("ours"), of("beside")) {
                let answers = ["ours", "beside"].map(|side| beside.run(side, inputs::ENTRIES));
                assert_eq!(
                    answers[0], answers[1],
                    "{text}: the two sides answer differently"
                );
                rows.push(asked_row(name_of("contains", count, text), ours, beside));
            }
        }
    }
    Section {
        title: MOST,
        beside: "Rust",
        rows,
    }
}

/// Beside the same call without the number.
fn counting(seam: &'static Case) -> Section {
    let most = leaked(inputs::costliest(64));
    let seam = leaked(Asked::new(
        vec![seam.region.corners.clone()],
        seam.points.clone(),
    ));
    let counting_row = |outline: &str, asked: &'static Asked| Row {
        name: name_of("contains_with_range_count", 64, outline),
        ours: Box::new(|n| asked.counting("ours", n)),
        beside: Beside::Row(name_of("contains", 64, outline)),
        check: Some(Box::new(|n| asked.counting("beside", n))),
        idle: Some(Box::new(|n| asked.idle(n))),
    };
    Section {
        title: "Containment with the number of edges in range",
        beside: "contains, ours",
        rows: vec![counting_row(COSTLIEST, most), counting_row(SEAM, seam)],
    }
}

fn edits(case: &'static Case) -> Section {
    let region = &case.region;
    let flag = region.flag == 1;
    let polygon = &case.polygon;
    // An insert ends with 64 corners.
    let shorter = leaked(region_of(&theirs::afresh(
        &theirs::points(&region.corners[5..]),
        flag,
    )));
    let edit = |name: &str, ours: Run, check: Run| {
        Row {
            name: name.into(),
            ours,
            beside: Beside::Row(fresh_build()),
            check: Some(check),
            idle: None,
        }
        .by_region(case)
    };
    let rows = vec![
        edit(
            "put",
            Box::new(move |n| region.entries(bench_put, &case.moved[..5 * n])),
            Box::new(move |n| theirs::put(&region.corners, flag, &case.moved[..5 * n])),
        ),
        edit(
            "insert, to 64 corners",
            Box::new(move |n| shorter.entries(bench_insert, &case.moved[..5 * n])),
            Box::new(move |n| theirs::insert(&shorter.corners, flag, &case.moved[..5 * n])),
        ),
        edit(
            "remove",
            Box::new(move |n| region.repeated(bench_remove, n)),
            Box::new(move |n| theirs::remove(&region.corners, flag, n)),
        ),
        edit(
            "turn",
            Box::new(move |n| region.repeated(bench_turn, n)),
            Box::new(move |n| theirs::turn(polygon, n)),
        ),
        edit(
            "hold",
            Box::new(move |n| region.entries(bench_hold, &case.points[..5 * n])),
            Box::new(move |n| theirs::hold(polygon, &case.points[..5 * n])),
        ),
        edit(
            "hold, on a lent region",
            Box::new(move |n| region.entries(bench_hold_lent, &case.points[..5 * n])),
            Box::new(move |n| theirs::hold(polygon, &case.points[..5 * n])),
        ),
        edit(
            "rule, Default",
            Box::new(move |n| region.rule(0, &case.points[..5 * n])),
            Box::new(move |n| theirs::rule(polygon, 0, &case.points[..5 * n])),
        ),
        edit(
            "rule, ControlPointIn",
            Box::new(move |n| region.rule(4, &case.points[..5 * n])),
            Box::new(move |n| theirs::rule(polygon, 4, &case.points[..5 * n])),
        ),
        copy(COPY, 1024),
        copy("the same, to the place right behind it", 0),
    ];
    Section {
        title: "Edits at 64 corners",
        beside: "fresh build of 64, ours",
        rows,
    }
}

/// A region's bytes, copied to a place that many bytes behind them.
fn copy(name: &str, gap: usize) -> Row {
    let run = move || -> Run {
        Box::new(move |n| {
            let mut bytes = [7u8; 3 * REGION_BYTES];
            let (from, rest) = bytes.split_at_mut(REGION_BYTES);
            for _ in 0..n {
                black_box(&mut rest[gap..gap + REGION_BYTES]).copy_from_slice(black_box(&*from));
            }
            rest[gap].into()
        })
    };
    Row {
        name: name.into(),
        ours: run(),
        beside: Beside::Row(fresh_build()),
        check: None,
        idle: Some(run()),
    }
}

fn files(case: &'static Case) -> Section {
    let region = &case.region;
    let flag = region.flag == 1;
    let one_file = one_file(case);
    let len = one_file.len();
    let asked = move |n: usize| case.points[..5 * n].chunks_exact(5);
    // The Rust caller's own part.
    let idle = || -> Option<Run> {
        Some(Box::new(move |n| {
            asked(n).fold(0, |sum, p| theirs::mix(sum, p[0].to_bits()))
        }))
    };
    let rows = vec![
        // The doors' reader.
        file_read(STRAIGHT, 64, case),
        row(
            "file write",
            Box::new(move |n| region.write(&case.moved[..5 * n], &mut vec![0; len])),
            Box::new(move |n| {
                theirs::write(
                    &region.corners,
                    flag,
                    &case.moved[..5 * n],
                    &mut vec![0; len],
                )
            }),
        )
        .by_region(case),
        Row {
            idle: idle(),
            ..row(
                "C door contains",
                Box::new(move |n| {
                    asked(n).fold(0, |sum, p| {
                        theirs::mix(sum, door_contains(one_file, p).into())
                    })
                }),
                Box::new(move |n| theirs::door_contains(one_file, &case.points[..5 * n])),
            )
        },
        Row {
            idle: idle(),
            ..row(
                "C door hold",
                Box::new(move |n| {
                    let mut file = one_file.to_vec();
                    asked(n).fold(0, |sum, p| {
                        door_hold(&mut file, p);
                        theirs::mix(sum, file[len - 12].into())
                    })
                }),
                Box::new(move |n| theirs::door_hold(&mut one_file.to_vec(), &case.points[..5 * n])),
            )
        },
    ];
    Section {
        title: "Files and the C doors, 64 corners",
        beside: "Rust",
        rows,
    }
}

fn file_read(reader: Reader, count: usize, case: &'static Case) -> Row {
    let (all, len) = inputs::files(case, 16);
    let all: &'static [u8] = leaked(all);
    row(
        &name_of(FILE_READ, count, reader.name),
        Box::new(move |n| reader.read(all, len, n)),
        Box::new(move |n| theirs::read(all, len, n)),
    )
}

fn one_file(case: &Case) -> &'static [u8] {
    leaked(inputs::files(case, 1).0)
}

fn readers(cases: &[Named], full: &'static Case) -> Section {
    let both = [STRAIGHT, COPYING];
    // That row is the doors' reader beside the Rust, in the table before.
    let there = name_of(FILE_READ, 64, STRAIGHT.name);
    let mut rows: Vec<Row> = cases
        .iter()
        .filter(|case| case.1 == SEAM)
        .flat_map(|&(count, _, case)| both.map(|reader| file_read(reader, count, case)))
        .filter(|row| row.name != there)
        .collect();
    let file = one_file(full);
    rows.extend(both.map(|reader| {
        row(
            &name_of(FILE_CONTAINS, 64, reader.name),
            Box::new(move |n| reader.contains(file, &full.points[..5 * n])),
            Box::new(move |n| theirs::door_contains(file, &full.points[..5 * n])),
        )
    }));
    Section {
        title: READERS,
        beside: "Rust",
        rows,
    }
}

// musl's portable root, where its source could be had.
#[cfg(software_root)]
extern "C" {
    fn software_root(values: *const f64, len: usize) -> u64;
    fn software_root_chain(values: *const f64, len: usize) -> u64;
}

fn roots() -> Section {
    let values: &'static [f64] = leaked(inputs::radicands());
    let of = |f: unsafe extern "C" fn(*const f64, usize) -> u64| -> Run {
        Box::new(move |n| one(f, &values[..n]))
    };
    #[allow(unused_mut)]
    let mut rows = vec![
        row(
            "root beside the hardware's, one after the other",
            of(bench_root_chain),
            Box::new(|n| theirs::root_chain(&values[..n])),
        ),
        row(
            "root beside the hardware's, many at once",
            of(bench_root),
            Box::new(|n| theirs::root(&values[..n])),
        ),
    ];
    #[cfg(software_root)]
    rows.extend([
        row(
            "root beside musl's in software, one after the other",
            of(bench_root_chain),
            of(software_root_chain),
        ),
        row(
            "root beside musl's in software, many at once",
            of(bench_root),
            of(software_root),
        ),
    ]);
    Section {
        title: "Root",
        beside: "the other root",
        rows,
    }
}

/// Small, middle and large, and all sizes mixed.
const SIZES: [(&str, Option<u32>); 5] = [
    ("8 binary digits", Some(8)),
    ("16 binary digits", Some(16)),
    ("32 binary digits", Some(32)),
    ("64 binary digits", Some(64)),
    ("all sizes mixed", None),
];

pub const ISQRT: &str = "u64::isqrt";

fn whole_roots() -> Section {
    type Loop = fn(&[u64]) -> u64;
    type Ours = unsafe extern "C" fn(*const u64, usize) -> u64;
    let ways: [(&str, Ours, [(&str, Loop); 2]); 2] = [
        (
            "one after the other",
            bench_whole_root_chain,
            [
                (ISQRT, theirs::whole_root_chain),
                (
                    "the hardware's, corrected",
                    theirs::hardware_whole_root_chain,
                ),
            ],
        ),
        (
            "many at once",
            bench_whole_root,
            [
                (ISQRT, theirs::whole_root),
                ("the hardware's, corrected", theirs::hardware_whole_root),
            ],
        ),
    ];
    let mut rows = Vec::new();
    for (size, digits) in SIZES {
        let values: &'static [u64] = leaked(inputs::numbers(digits));
        for (way, ours, others) in ways {
            for (other, run) in others {
                rows.push(row(
                    &format!("whole root beside {other}, {size}, {way}"),
                    Box::new(move |n| numbers(ours, &values[..n])),
                    Box::new(move |n| run(&values[..n])),
                ));
            }
        }
    }
    Section {
        title: "Whole root",
        beside: "the other root",
        rows,
    }
}

fn zones_and_cones(cases: &[Named]) -> Section {
    let bounds: &'static [f64] = leaked(inputs::zones());
    let triples: &'static [f64] = leaked(inputs::zone_triples());
    let mut rows = vec![
        row(
            "zone new",
            Box::new(|n| one(bench_zone_new, &bounds[..5 * n])),
            Box::new(|n| theirs::zone_new(&bounds[..5 * n])),
        ),
        row(
            "zone: dlon, both crossed, lon range, both contains",
            Box::new(|n| two(bench_zone_questions, bounds, &triples[..3 * n])),
            Box::new(|n| theirs::zone_questions(bounds, &triples[..3 * n])),
        ),
    ];
    for &(count, outline, case) in cases.iter().filter(|case| case.1 == SEAM) {
        let cone = row(
            &name_of("bounding cone", count, outline),
            Box::new(move |n| two(bench_cone, &case.region.corners, &case.moved[..5 * n])),
            Box::new(move |n| theirs::cone(&case.region.corners, &case.moved[..5 * n])),
        );
        rows.push(cone.by_corners(case));
    }
    Section {
        title: "Zones and bounding cones",
        beside: "Rust",
        rows,
    }
}
