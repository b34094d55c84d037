//! generate SEED COUNT: writes COUNT requests to standard output, the same ones for the same seed.
//! generate SEED COUNT edits: writes COUNT lists of edits instead, each with what it starts from.
//! generate SEED COUNT roots: writes COUNT requests for whole roots alone.
//! generate fixed: writes the requests of the fixed list that are not drawn (fixed.rs).
//!
//! Of a hundred requests outside a list (`CALL_SHARES`)
//!
//! - 14 are builds, 6 region values, 4 of them with a seam count, often a wrong one, and 2 outlines
//!   that cost most; after every second one the region is asked for besides, after every fourth its
//!   seam count, after every eighth its file (`AFTER_MAKING`), after an outline whether points are
//!   contained (`AFTER_OUTLINE`), and after some a list of edits begins (`LIST_AFTER_BUILD`,
//!   `LIST_AFTER_FULL_BUILD`, `LIST_AFTER_VALUE`, `LIST_AFTER_OUTLINE`), so that about six requests
//!   of ten stand in lists;
//! - 10 are files, 3 to read, 3 to read straight and 4 for the C doors, 2 contains and 2 hold; the
//!   three that were not drawn are asked of the same file after it (`other_readers`), after each
//!   read the region, its seam count and its file as `AFTER_READ` says, and after some a list of
//!   edits begins (`LIST_AFTER_READ`);
//! - 3 ask for the region's seam count, and 3 for its file;
//! - 11 ask whether a point is contained, 5 of them with the number of edges in range;
//! - 12 are arcs: 5 first, 5 all, 2 is intersecting;
//! - 5 are great circles;
//! - 14 are parallels: 6 first, 6 all, 2 is intersecting;
//! - 4 are roots, 4 whole roots, 4 new zones, 5 questions to the zone kept and 3 bounding cones.
//!
//! A list has 1 to 200 edits, whose shares stand in edits.rs. Of a hundred requests in it 40 are
//! questions to the region (`QUESTION_SHARE`): 8 ask for the region, 4 for its seam count, 10
//! whether a point is contained, 4 of them with the number of edges in range, 14 are arcs, great
//! circles and parallels, 4 ask for its file; and of a thousand 4 are files to read, each with the
//! other three that are asked of a file (`QUESTION_SHARES`).
//!
//! In a run of lists each starts from a build that is not refused or, 18 of a hundred, from a value
//! or, 15, from a file that is not refused or, 7, from an outline that costs most
//! (`START_SHARES`). What is asked after an edit stands in `AFTER_EDIT`.
//!
//! Each question and each edit is asked once at the start, before there is a region or a zone. From
//! then on it is aimed at the region that the builds, values and edits so far have left, and where
//! that began as an outline often at the outline's own point (`OWN_POINT_SHARE`).
//!
//! Of a hundred requests of each kind (`CLASS_SHARES`)
//!
//! - 50 are good: ordinary values inside the domain;
//! - 30 are borderline: on a bound, a few units in the last place beside it, where a case ends or
//!   where an operation loses its digits, so that some are refused and some are not;
//! - 10 are damaged: good ones in which one value, or a few, are NaN, infinite or out of bounds;
//! - 10 are raw: random bit patterns; but for roots, every second time held to small exponents, as
//!   few others come past the tests of the domain.
//!
//! Region values and files have shares of their own (`VALUE_CLASS_SHARES`, `FILE_CLASS_SHARES`).
//! How many points there are is drawn by `CONE_SHARES`, `CORNER_SHARES`, `VALUE_SHARES`,
//! `FILE_SHARES` and `OUTLINE_SHARES`; besides, one cone or build in `LONG_ONE_IN` has up to 4,096.

mod draw;
mod edges;
mod edits;
mod files;
mod fixed;
mod fixed_files;
mod points;
mod queries;
mod regions;
mod roots;

use std::f64::consts::PI;
use std::io::{self, BufWriter, Write};
use std::process::ExitCode;

use draw::{stepped, Class, Draw, RAISED_NORTH, SMALLEST, SPECIAL};
use edges::{Kept, Point};
use edits::List;
use points::{point_count, points, CountShare};
use regions::{build, outline_count, region_value, Build};
use stream::{
    outline, within, words_of, write_word, zone_bounds_hold, Call, EDITS, HALF_PI, MOST_POINTS,
    POINT_BOUNDS, READERS, TWO_PI,
};

const CLASS_SHARES: [(Class, u64); 4] = [
    (Class::Good, 50),
    (Class::Borderline, 30),
    (Class::Damaged, 10),
    (Class::Raw, 10),
];

const CALL_SHARES: [(Call, u64); 24] = [
    (Call::Build, 14),
    (Call::RegionValue, 2),
    (Call::SeamedValue, 4),
    (Call::CostliestOutline, 2),
    (Call::SeamCount, 3),
    (Call::Contains, 6),
    (Call::RangeCount, 5),
    (Call::ArcFirst, 5),
    (Call::ArcAll, 5),
    (Call::IsIntersectingArc, 2),
    (Call::GreatCircleAll, 5),
    (Call::ParallelFirst, 6),
    (Call::ParallelAll, 6),
    (Call::IsIntersectingParallel, 2),
    (Call::WriteFile, 3),
    (Call::ReadFile, 3),
    (Call::ReadStraight, 3),
    (Call::DoorContains, 2),
    (Call::DoorHold, 2),
    (Call::Root, 4),
    (Call::WholeRoot, 4),
    (Call::ZoneNew, 4),
    (Call::ZoneRest, 5),
    (Call::BoundingCone, 3),
];

/// Asked before there is a zone or a region, as are the edits.
const FIRST_CALLS: [Call; 13] = [
    Call::Region,
    Call::SeamCount,
    Call::Contains,
    Call::RangeCount,
    Call::ArcFirst,
    Call::ArcAll,
    Call::IsIntersectingArc,
    Call::GreatCircleAll,
    Call::ParallelFirst,
    Call::ParallelAll,
    Call::IsIntersectingParallel,
    Call::WriteFile,
    Call::ZoneRest,
];

/// Of a hundred builds, region values and outlines after how many each of these is asked.
const AFTER_MAKING: [(Call, u64); 3] = [
    (Call::Region, 50),
    (Call::WriteFile, 12),
    (Call::SeamCount, 25),
];

/// The same of files read, also where that is refused.
const AFTER_READ: [(Call, u64); 3] = [
    (Call::Region, 100),
    (Call::WriteFile, 12),
    (Call::SeamCount, 50),
];

/// Of a hundred builds after how many a list of edits begins.
const LIST_AFTER_BUILD: u64 = 12;

/// The same of builds that leave a region of 63 or 64 corners.
const LIST_AFTER_FULL_BUILD: u64 = 60;

/// The same of files read.
const LIST_AFTER_READ: u64 = 9;

/// The same of region values.
const LIST_AFTER_VALUE: u64 = 27;

/// The same of outlines that cost most.
const LIST_AFTER_OUTLINE: u64 = 25;

/// Of a hundred such outlines after how many each of these is asked besides.
const AFTER_OUTLINE: [(Call, u64); 3] = [
    (Call::RangeCount, 60),
    (Call::RangeCount, 40),
    (Call::Contains, 40),
];

/// While such an outline is kept, edited or not, how many points of a hundred are its own one.
const OWN_POINT_SHARE: u64 = 40;

/// Of a hundred requests in a list how many are questions.
const QUESTION_SHARE: u64 = 40;

/// A file that is read puts its region in the place of the one edited so far.
const QUESTION_SHARES: [(Call, u64); 13] = [
    (Call::Region, 20),
    (Call::SeamCount, 10),
    (Call::Contains, 14),
    (Call::RangeCount, 10),
    (Call::ArcFirst, 5),
    (Call::ArcAll, 6),
    (Call::IsIntersectingArc, 3),
    (Call::GreatCircleAll, 6),
    (Call::ParallelFirst, 6),
    (Call::ParallelAll, 7),
    (Call::IsIntersectingParallel, 3),
    (Call::WriteFile, 9),
    (Call::ReadFile, 1),
];

// A run of lists of edits has its own shares.

/// Of a hundred lists how many start from what.
const START_SHARES: [(Call, u64); 6] = [
    (Call::Build, 60),
    (Call::RegionValue, 3),
    (Call::SeamedValue, 15),
    (Call::ReadFile, 8),
    (Call::ReadStraight, 7),
    (Call::CostliestOutline, 7),
];

/// Of a hundred edits after how many each of these is asked.
const AFTER_EDIT: [(Call, u64); 5] = [
    (Call::Region, 25),
    (Call::SeamCount, 25),
    (Call::Contains, 15),
    (Call::RangeCount, 15),
    (Call::WriteFile, 3),
];

const CONE_SHARES: [CountShare; 9] = [
    ((0, 0), 20),
    ((1, 1), 80),
    ((2, 2), 170),
    ((3, 8), 520),
    ((9, 62), 100),
    ((63, 63), 30),
    ((64, 64), 40),
    ((65, 65), 30),
    ((66, 80), 10),
];

// Zones

/// lon_min, lat_min, lon_max, lat_max.
type Bounds = [f64; 4];

fn zone(draw: &mut Draw, class: Class) -> Bounds {
    match class {
        Class::Good => good_zone(draw),
        Class::Borderline => {
            let mut bounds = good_zone(draw);
            for _ in 0..draw.whole(1, 3) {
                let [lon_min, lat_min, lon_max, lat_max] = bounds;
                match draw.below(4) {
                    0 => bounds[0] = draw.near_one_of(&[0.0, -0.0, PI, TWO_PI, lon_max]),
                    1 => bounds[1] = draw.near_one_of(&[-HALF_PI, HALF_PI, 0.0, -0.0, lat_max]),
                    2 => bounds[2] = draw.near_one_of(&[0.0, -0.0, PI, TWO_PI, lon_min]),
                    _ => {
                        let edges = [-HALF_PI, HALF_PI, RAISED_NORTH, 0.0, -0.0, lat_min];
                        bounds[3] = draw.near_one_of(&edges);
                    }
                }
            }
            bounds
        }
        Class::Damaged => {
            let mut bounds = good_zone(draw);
            let [_, lat_min, _, lat_max] = bounds;
            let place = draw.below(4) as usize;
            match draw.below(16) {
                // The comparisons of the assertions in turn, each with its bound or beyond it.
                0 => bounds[0] = stepped(0.0, -(draw.whole(1, 9) as i64)),
                1 => bounds[0] = stepped(TWO_PI, draw.below(9) as i64),
                2 => bounds[2] = stepped(0.0, -(draw.below(9) as i64)),
                3 => bounds[2] = stepped(TWO_PI, draw.whole(1, 9) as i64),
                4 => bounds[1] = stepped(-HALF_PI, -(draw.whole(1, 9) as i64)),
                5 => bounds[1] = stepped(HALF_PI, draw.below(9) as i64),
                6 => bounds[3] = stepped(-HALF_PI, -(draw.below(9) as i64)),
                7 => bounds[3] = stepped(HALF_PI, draw.whole(1, 9) as i64),
                8 => bounds.swap(1, 3),
                9 => bounds[1] = stepped(lat_max, draw.below(3) as i64),
                10 => bounds[3] = stepped(lat_min, -(draw.below(3) as i64)),
                11..=13 => bounds[place] = draw.nan(),
                // Longitudes and latitudes take turns, with a point's bounds for them.
                _ => bounds[place] = draw.bad(POINT_BOUNDS[3 + place % 2]),
            }
            bounds
        }
        Class::Raw => draw.raws(),
    }
}

fn good_zone(draw: &mut Draw) -> Bounds {
    let (lats, lons) = if draw.percent(80) {
        (HALF_PI, PI)
    } else {
        let size = 10f64.powi(-(draw.whole(1, 15) as i32));
        (size, size)
    };
    let (one, other) = (draw.between(-lats, lats), draw.between(-lats, lats));
    let mut lat_min = one.min(other);
    let mut lat_max = one.max(other);
    if lat_min == lat_max || draw.percent(30) {
        lat_max = HALF_PI;
    }
    if draw.percent(15) {
        lat_min = -HALF_PI;
    }
    let last = stepped(TWO_PI, -1);
    let at = draw.between(0.0, TWO_PI);
    let lon = |draw: &mut Draw| (at + draw.between(-lons, lons)).rem_euclid(TWO_PI);
    let (one, other) = (lon(draw), lon(draw));
    let (mut lon_min, mut lon_max) = match draw.below(100) {
        0..=47 => (one.max(other), one.min(other)), // across the primary meridian
        48..=87 => (one.min(other), one.max(other)),
        _ => (one, one),
    };
    if draw.percent(8) {
        lon_min = 0.0;
    }
    if draw.percent(8) {
        lon_max = TWO_PI;
    }
    [lon_min.min(last), lat_min, lon_max.max(SMALLEST), lat_max]
}

/// Three numbers for all questions to the zone kept. Each question takes them, or the first two, in
/// its own way: as lon, lat, lat or as lon, lon, lat.
fn zone_rest(draw: &mut Draw, class: Class, kept: &Bounds) -> [f64; 3] {
    match class {
        Class::Good => good_rest(draw, kept).0,
        Class::Borderline => {
            let [west, south, east, north] = *kept;
            let raised = if north == HALF_PI {
                RAISED_NORTH
            } else {
                north
            };
            let lons = [west, west, west, east, east, east, 0.0, -0.0, TWO_PI];
            let lats = [
                south, south, south, north, raised, raised, raised, HALF_PI, -HALF_PI,
            ];
            let (mut three, second) = good_rest(draw, kept);
            let edges = match second {
                Second::Lon => [lons, lons, lats],
                Second::Lat => [lons, lats, lats],
            };
            // One number on an edge leaves the answer to it; with several, edges meet.
            if draw.percent(60) {
                let place = draw.below(3) as usize;
                three[place] = draw.near_one_of(&edges[place]);
            } else {
                for (value, edges) in three.iter_mut().zip(edges) {
                    match draw.below(20) {
                        0..=13 => *value = draw.near_one_of(&edges),
                        14 => *value = draw.near_one_of(&SPECIAL),
                        _ => {}
                    }
                }
            }
            if draw.percent(10) {
                let (one, other) = draw.pick(&[(0, 1), (1, 2), (0, 2)]);
                three.swap(one, other);
            }
            three
        }
        Class::Damaged => {
            let (mut three, _) = good_rest(draw, kept);
            for _ in 0..draw.whole(1, 3) {
                let place = draw.below(3) as usize;
                let bounds = if place == 2 {
                    (-HALF_PI, HALF_PI)
                } else {
                    (0.0, TWO_PI)
                };
                three[place] = draw.bad(bounds);
            }
            three
        }
        Class::Raw => draw.raws(),
    }
}

/// What the second of the three numbers is meant as.
enum Second {
    Lon,
    Lat,
}

/// Numbers chosen so that, often, one question is answered with yes.
fn good_rest(draw: &mut Draw, kept: &Bounds) -> ([f64; 3], Second) {
    let [west, south, east, north] = *kept;
    let inside = lon_inside(draw, kept);
    let lat = draw.between(south, north);
    match draw.below(5) {
        // An arc from below the zone to above it.
        0 => {
            let below = draw.between(-HALF_PI, south);
            let above = draw.between(north, RAISED_NORTH + f64::EPSILON);
            ([inside, below, above], Second::Lat)
        }
        // A parallel from west of the zone to east of it.
        1 => {
            let (left, right) = if west > east {
                let left = draw.between(east, west);
                (left, draw.between(east, left))
            } else {
                (draw.between(0.0, west), draw.between(east, TWO_PI))
            };
            let ends = if draw.percent(70) {
                [left, right, lat]
            } else {
                [right, left, lat]
            };
            (ends, Second::Lon)
        }
        // A range of longitudes inside the zone's.
        2 => {
            let other = lon_inside(draw, kept);
            let (least, greatest) = (inside.min(other), inside.max(other));
            let range = if west > east {
                [greatest, least, lat]
            } else {
                [least, greatest, lat]
            };
            (range, Second::Lon)
        }
        // A point inside the zone.
        3 => {
            let third = draw.between(-HALF_PI, HALF_PI);
            ([inside, lat, third], Second::Lat)
        }
        _ => {
            let lon = draw.between(0.0, TWO_PI);
            let [lat, third] = [(); 2].map(|()| draw.between(-HALF_PI, HALF_PI));
            ([lon, lat, third], Second::Lat)
        }
    }
}

fn lon_inside(draw: &mut Draw, kept: &Bounds) -> f64 {
    let [west, _, east, _] = *kept;
    if west <= east {
        draw.between(west, east)
    } else if draw.percent(50) {
        draw.between(west, TWO_PI)
    } else {
        draw.between(0.0, east)
    }
}

fn main() -> ExitCode {
    let arguments: Vec<String> = std::env::args().skip(1).collect();
    let words: Vec<&str> = arguments.iter().map(String::as_str).collect();
    let run = |seed: &str, count: &str| Some((Run::new(seed.parse().ok()?), count.parse().ok()?));
    let written = match *words {
        ["fixed"] => Some(fixed::requests(&mut BufWriter::new(io::stdout().lock()))),
        [seed, count] => run(seed, count).map(|(mut run, count)| run.requests(count)),
        [seed, count, "edits"] => run(seed, count).map(|(mut run, count)| run.lists(count)),
        [seed, count, "roots"] => run(seed, count).map(|(mut run, count)| run.whole_roots(count)),
        _ => None,
    };
    let Some(written) = written else {
        eprintln!("usage: generate SEED COUNT, generate SEED COUNT edits, generate SEED COUNT roots, or generate fixed");
        return ExitCode::from(2);
    };
    match written {
        Ok(()) => ExitCode::SUCCESS,
        Err(e) => {
            eprintln!("generate: {e}");
            ExitCode::FAILURE
        }
    }
}

/// What is written to, what is drawn from, and what the requests so far have left.
struct Run {
    out: BufWriter<io::StdoutLock<'static>>,
    draw: Draw,
    zone: Bounds,
    region: Kept,
    /// The point of the outline that the region kept began as, where it was one that costs most.
    own_point: Option<Point>,
    /// What the readers of a file are asked of.
    file: Vec<u8>,
}

impl Run {
    fn new(seed: u64) -> Self {
        let mut draw = Draw { state: seed };
        Run {
            out: BufWriter::with_capacity(1 << 20, io::stdout().lock()),
            // Until a zone and a region are kept the questions draw on ones that no program was
            // told.
            zone: [1.0, -0.5, 2.0, 0.5],
            region: Kept::built(points(&mut draw, Class::Good, 4)),
            own_point: None,
            file: Vec::new(),
            draw,
        }
    }

    /// That many requests of all kinds.
    fn requests(&mut self, count: u64) -> io::Result<()> {
        let mut due: Vec<Call> = FIRST_CALLS.into_iter().chain(EDITS).rev().collect();
        let mut list = List::empty();
        for _ in 0..count {
            let call = match due.pop() {
                Some(call) => call,
                None => {
                    let call = self.drawn(&mut list);
                    if let Some(others) = other_readers(call) {
                        self.file = files::file(&mut self.draw, &self.region);
                        due.extend(others.into_iter().rev());
                    }
                    call
                }
            };
            self.request(call)?;
            let full = self.region.corners.len() as u64 >= MOST_POINTS - 1;
            let begins = match call {
                Call::Build if full => LIST_AFTER_FULL_BUILD,
                Call::Build => LIST_AFTER_BUILD,
                Call::ReadFile | Call::ReadStraight => LIST_AFTER_READ,
                Call::RegionValue | Call::SeamedValue => LIST_AFTER_VALUE,
                Call::CostliestOutline => LIST_AFTER_OUTLINE,
                _ => continue,
            };
            let draw = &mut self.draw;
            if call == Call::CostliestOutline {
                for (question, share) in AFTER_OUTLINE {
                    due.extend(draw.percent(share).then_some(question));
                }
            }
            let after = match call {
                Call::ReadFile | Call::ReadStraight => AFTER_READ,
                _ => AFTER_MAKING,
            };
            for (question, share) in after {
                due.extend(draw.percent(share).then_some(question));
            }
            if list.left == 0 && draw.percent(begins) {
                list = List::mixed(draw);
            }
        }
        self.out.flush()
    }

    /// What is asked where nothing is due.
    fn drawn(&mut self, list: &mut List) -> Call {
        let draw = &mut self.draw;
        if list.left == 0 {
            draw.by_share(&CALL_SHARES)
        } else if draw.percent(QUESTION_SHARE) {
            draw.by_share(&QUESTION_SHARES)
        } else {
            list.edit(draw, &self.region)
        }
    }

    /// That many requests for whole roots.
    fn whole_roots(&mut self, count: u64) -> io::Result<()> {
        for _ in 0..count {
            self.request(Call::WholeRoot)?;
        }
        self.out.flush()
    }

    /// That many lists of edits.
    fn lists(&mut self, count: u64) -> io::Result<()> {
        for _ in 0..count {
            match self.draw.by_share(&START_SHARES) {
                Call::Build => {
                    let build = self.build_not_refused();
                    write_word(&mut self.out, Call::Build as u64)?;
                    self.write_build(build)?;
                }
                reader if READERS.contains(&reader) => {
                    self.file = self.file_not_refused();
                    // The list goes on from what this one reads.
                    for reader in other_readers(reader).into_iter().flatten().chain([reader]) {
                        self.request(reader)?;
                        self.request(Call::Region)?;
                    }
                }
                Call::CostliestOutline => {
                    let count = self.draw.whole(1, MOST_POINTS);
                    write_word(&mut self.out, Call::CostliestOutline as u64)?;
                    self.write_outline(count)?;
                }
                value => self.request(value)?,
            }
            let mut list = List::uniform(&mut self.draw);
            while list.left > 0 {
                let edit = list.edit(&mut self.draw, &self.region);
                self.request(edit)?;
                for (question, share) in AFTER_EDIT {
                    if self.draw.percent(share) {
                        self.request(question)?;
                    }
                }
            }
        }
        self.out.flush()
    }

    fn build_not_refused(&mut self) -> Build {
        loop {
            let class = self.draw.by_share(&CLASS_SHARES);
            let build = build(&mut self.draw, class);
            if build.kept().is_some() {
                return build;
            }
        }
    }

    fn file_not_refused(&mut self) -> Vec<u8> {
        loop {
            let file = files::file(&mut self.draw, &self.region);
            if Kept::read(&file).is_some() {
                return file;
            }
        }
    }

    fn request(&mut self, call: Call) -> io::Result<()> {
        write_word(&mut self.out, call as u64)?;
        let class = self.draw.by_share(&CLASS_SHARES);
        let Run {
            out,
            draw,
            zone: zone_kept,
            region,
            own_point,
            file,
        } = self;
        match call {
            Call::Build => {
                let build = build(draw, class);
                self.write_build(build)?;
            }
            Call::Put | Call::Insert => {
                let index = edits::index(draw, region);
                let corner = edits::corner(draw, class, region, index);
                write_word(out, index)?;
                write(out, &corner)?;
                if within(&corner, &POINT_BOUNDS) {
                    match call {
                        Call::Put => region.put(index, corner),
                        _ => region.insert(index, corner),
                    }
                }
            }
            Call::Remove => {
                let index = edits::index(draw, region);
                write_word(out, index)?;
                region.remove(index);
            }
            Call::Turn | Call::Region | Call::SeamCount => {}
            Call::Rule => {
                let (rule, control) = edits::rule(draw, class, region);
                write_word(out, rule)?;
                write(out, &control)?;
            }
            Call::Hold | Call::HoldLent | Call::Contains | Call::RangeCount => {
                let point = match own_point {
                    Some(own_point) if draw.percent(OWN_POINT_SHARE) => *own_point,
                    _ => queries::point(draw, class, region),
                };
                write(out, &point)?;
            }
            Call::ArcFirst | Call::ArcAll | Call::IsIntersectingArc => {
                write_all(out, &queries::arc(draw, class, region))?;
            }
            Call::GreatCircleAll => {
                write(out, &queries::great_circle(draw, class, region))?;
            }
            Call::ParallelFirst | Call::ParallelAll | Call::IsIntersectingParallel => {
                write(out, &queries::parallel(draw, class, region))?;
            }
            Call::WriteFile => write_word(out, files::output(draw, region))?,
            Call::ReadFile | Call::ReadStraight => {
                write_bytes(out, file)?;
                if let Some(kept) = Kept::read(file) {
                    self.keep(kept);
                }
            }
            Call::DoorContains | Call::DoorHold => {
                let read = Kept::read(file);
                write_bytes(out, file)?;
                let aim = read.as_ref().unwrap_or(region);
                write(out, &queries::point(draw, class, aim))?;
            }
            Call::Root => write(out, &[roots::root(draw, class)])?,
            Call::WholeRoot => write_word(out, roots::whole(draw, class))?,
            Call::ZoneNew => {
                let bounds = zone(draw, class);
                write(out, &bounds)?;
                let [lon_min, lat_min, lon_max, lat_max] = bounds;
                if zone_bounds_hold(lon_min, lat_min, lon_max, lat_max) {
                    *zone_kept = bounds;
                }
            }
            Call::ZoneRest => write(out, &zone_rest(draw, class, zone_kept))?,
            Call::BoundingCone => {
                let count = point_count(draw, &CONE_SHARES);
                write_word(out, count)?;
                write_all(out, &points(draw, class, count))?;
            }
            Call::RegionValue | Call::SeamedValue => {
                let value = region_value(draw);
                write_word(out, value.count)?;
                write_word(out, value.flag)?;
                if call == Call::SeamedValue {
                    write_word(out, value.seam_count)?;
                }
                write_all(out, &value.corners)?;
                write_all(out, &value.normals)?;
                self.keep(value.kept());
            }
            Call::CostliestOutline => {
                let count = outline_count(draw);
                self.write_outline(count)?;
            }
        }
        Ok(())
    }

    fn keep(&mut self, region: Kept) {
        self.region = region;
        self.own_point = None;
    }

    fn write_build(&mut self, build: Build) -> io::Result<()> {
        write_word(&mut self.out, build.corners.len() as u64)?;
        write_word(&mut self.out, build.rule)?;
        write(&mut self.out, &build.control)?;
        write_all(&mut self.out, &build.corners)?;
        if let Some(kept) = build.kept() {
            self.keep(kept);
        }
        Ok(())
    }

    fn write_outline(&mut self, count: u64) -> io::Result<()> {
        write_word(&mut self.out, count)?;
        if let Some(kept) = Kept::outline(count) {
            self.keep(kept);
            self.own_point = Some(outline::ABREAST);
        }
        Ok(())
    }
}

/// Of a reader of files those that are asked of the same file after it, in turn.
fn other_readers(call: Call) -> Option<[Call; 3]> {
    let mut turn = READERS;
    turn.rotate_left(READERS.iter().position(|&reader| reader == call)?);
    let [_, others @ ..] = turn;
    Some(others)
}

/// A number of bytes, and the bytes.
fn write_bytes<W: Write>(out: &mut W, bytes: &[u8]) -> io::Result<()> {
    write_word(out, bytes.len() as u64)?;
    for word in words_of(bytes) {
        write_word(out, word)?;
    }
    Ok(())
}

/// A request's doubles keep their bits, those of a NaN as well.
fn write<W: Write>(out: &mut W, values: &[f64]) -> io::Result<()> {
    for value in values {
        write_word(out, value.to_bits())?;
    }
    Ok(())
}

fn write_all<W: Write, const N: usize>(out: &mut W, entries: &[[f64; N]]) -> io::Result<()> {
    for entry in entries {
        write(out, entry)?;
    }
    Ok(())
}
