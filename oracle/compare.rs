//! compare REQUESTS ANSWERS_A ANSWERS_B: walks the three files in step and checks that both sides
//! gave the same bytes. Prints how many requests of each kind there were and how they came out.
//! At the first difference it prints the request and both answers, and exits with 1.

mod cases;
mod edges;

use std::collections::BTreeMap;
use std::fs::File;
use std::num::FpCategory;
use std::process::ExitCode;

use edges::{doubles, Kept, Point};
use stream::{
    describe_answer, describe_request, read_answer, read_request, status, Call, Kind, Next,
    Outcome, Part, Words, EDITS, KINDS, RULES,
};

fn main() -> ExitCode {
    let arguments: Vec<String> = std::env::args().skip(1).collect();
    let [requests, a, b] = arguments.as_slice() else {
        eprintln!("usage: compare REQUESTS ANSWERS_A ANSWERS_B");
        return ExitCode::from(2);
    };
    match compare(requests, a, b) {
        Ok(true) => ExitCode::SUCCESS,
        Ok(false) => ExitCode::FAILURE,
        Err(message) => {
            eprintln!("compare: {message}");
            ExitCode::from(2)
        }
    }
}

/// A file of words, with its name for messages.
struct Stream<'a> {
    path: &'a str,
    words: Words<File>,
}

impl<'a> Stream<'a> {
    fn open(path: &'a str) -> Result<Self, String> {
        let file = File::open(path).map_err(|e| format!("{path}: {e}"))?;
        Ok(Stream {
            path,
            words: Words::new(file),
        })
    }

    /// Whether no byte is left.
    fn at_end(&mut self) -> Result<bool, String> {
        let word = self.words.word().map_err(|e| self.failed(e))?;
        Ok(word.is_none() && self.words.left_over() == 0)
    }

    fn failed(&self, e: std::io::Error) -> String {
        format!("{}: {e}", self.path)
    }
}

/// One side's answers, and the answer read last.
struct Side<'a> {
    stream: Stream<'a>,
    answer: Vec<u64>,
    whole: bool,
}

impl<'a> Side<'a> {
    fn open(path: &'a str) -> Result<Self, String> {
        Ok(Side {
            stream: Stream::open(path)?,
            answer: Vec::new(),
            whole: true,
        })
    }

    fn read(&mut self, kind: &Kind, request: &[u64]) -> Result<(), String> {
        self.whole = read_answer(&mut self.stream.words, kind, request, &mut self.answer)
            .map_err(|e| self.stream.failed(e))?;
        Ok(())
    }

    fn describe(&self, kind: &Kind, request: &[u64]) -> Vec<String> {
        let mut lines = describe_answer(kind, request, &self.answer);
        if !self.whole {
            lines.push("the answer is not whole".to_string());
        }
        lines
    }
}

/// How the requests of one kind came out.
#[derive(Clone, Default)]
struct Tally {
    count: u64,
    /// By status; where there is none by what a door returned, by class of the double, or by
    /// what is left of the whole root.
    outcomes: BTreeMap<u64, u64>,
    /// For each pole rule, how many requests there were and how many were not refused.
    rules: [(u64, u64); RULES.len()],
    /// For each of the answer's parts, how often it was 0, 1, 2, and 3 or more, and the greatest.
    sizes: Vec<([u64; 4], u64)>,
    /// Over the parallel's requests that were not refused for their arguments.
    cases: cases::Counts,
    /// Over the edges of the regions whose seam count was asked for.
    steps: cases::Steps,
    /// How often (0, 0, −1) and (0, 0, 1) were not contained and were.
    poles: [[u64; 2]; 2],
}

const CLASSES: [&str; 4] = ["finite", "zero", "infinite", "NaN"];
const REMAINDERS: [&str; 3] = ["a square", "one below a square", "neither"];

impl Tally {
    fn add(&mut self, kind: &Kind, request: &[u64], answer: &[u64], region: &Kept) {
        self.count += 1;
        let outcome = match kind.outcome {
            Outcome::Status | Outcome::Door => answer[0],
            Outcome::Double => match f64::from_bits(answer[0]).classify() {
                FpCategory::Normal | FpCategory::Subnormal => 0,
                FpCategory::Zero => 1,
                FpCategory::Infinite => 2,
                FpCategory::Nan => 3,
            },
            Outcome::WholeRoot => match answer {
                [_, 0] => 0,
                [root, remainder] if *remainder == 2 * root => 1,
                _ => 2,
            },
        };
        *self.outcomes.entry(outcome).or_default() += 1;
        let done = kind.outcome == Outcome::Status && outcome == status::DONE;
        for (part, &word) in kind.request.iter().zip(request) {
            if let Part::Rule(_) = part {
                let (count, not_refused) = &mut self.rules[word as usize];
                *count += 1;
                *not_refused += u64::from(done);
            }
        }
        if done {
            self.sizes.resize(kind.answer.len(), ([0; 4], 0));
            // Lists and bytes stand last in an answer: the parts before them are one word each.
            for ((sizes, greatest), &word) in self.sizes.iter_mut().zip(&answer[1..]) {
                sizes[word.min(3) as usize] += 1;
                *greatest = word.max(*greatest);
            }
        }
        if done || outcome == status::NOT_FINITE {
            match kind.call {
                Call::ParallelFirst | Call::IsIntersectingParallel => {
                    region.count(request, true, &mut self.cases);
                }
                Call::ParallelAll => region.count(request, false, &mut self.cases),
                Call::SeamCount => region.count_steps(&mut self.steps),
                Call::Contains | Call::RangeCount => {
                    let [x, y, z, _, _]: Point = doubles(request);
                    if x == 0.0 && y == 0.0 && z.abs() == 1.0 {
                        self.poles[usize::from(z > 0.0)][usize::from(answer[1] != 0)] += 1;
                    }
                }
                _ => {}
            }
        }
    }

    fn print(&self, kind: &Kind) {
        let outcomes: Vec<String> = self
            .outcomes
            .iter()
            .map(|(&outcome, count)| match kind.outcome {
                Outcome::Status => format!("status {outcome}: {count}"),
                Outcome::Door => format!("returned {outcome}: {count}"),
                Outcome::Double => format!("{}: {count}", CLASSES[outcome as usize]),
                Outcome::WholeRoot => format!("{}: {count}", REMAINDERS[outcome as usize]),
            })
            .collect();
        print_row(
            &(kind.call as u64).to_string(),
            kind.name,
            &self.count.to_string(),
            &outcomes.join(", "),
        );
        let detail = |text: &str| print_row("", "", "", &format!("  {text}"));
        if kind
            .request
            .iter()
            .any(|part| matches!(part, Part::Rule(_)))
        {
            for (name, (count, not_refused)) in RULES.iter().zip(&self.rules) {
                detail(&format!("{name}: {count}, not refused: {not_refused}"));
            }
        }
        for (([none, one, two, more], greatest), part) in self.sizes.iter().zip(kind.answer) {
            match part {
                Part::YesNo(name) => detail(&format!("{name}: no {none}, yes {one}")),
                Part::Found(name) => detail(&format!("{name}: none {none}, one {one}")),
                Part::Number(name) => detail(&format!("{name}: at most {greatest}")),
                Part::Count(name) | Part::Tally(name) => detail(&format!(
                    "{name} 0: {none}, 1: {one}, 2: {two}, 3 or more: {more}, at most {greatest}"
                )),
                _ => {}
            }
        }
        if matches!(kind.call, Call::Contains | Call::RangeCount) {
            for (name, [no, yes]) in ["southern", "northern"].iter().zip(&self.poles) {
                detail(&format!("at the {name} pole: no {no}, yes {yes}"));
            }
        }
        if kind.call == Call::SeamCount {
            for (name, count) in cases::STEPS.iter().zip(&self.steps) {
                detail(&format!("edges with a step {name}: {count}"));
            }
        }
    }
}

fn print_row(number: &str, name: &str, count: &str, rest: &str) {
    println!("{number:>3}  {name:<25} {count:>9}  {rest}");
}

/// The parallel's cases, one column for each of its calls.
fn print_cases(tallies: &[Tally]) {
    let columns = [
        Call::ParallelFirst,
        Call::ParallelAll,
        Call::IsIntersectingParallel,
    ];
    let numbers = columns.map(|call| format!("{:>9}", call as u64));
    print_row(
        "",
        "the parallel's cases",
        &numbers[0],
        &numbers[1..].join("  "),
    );
    for (index, name) in cases::NAMES.iter().enumerate() {
        let counts = columns.map(|call| {
            let mut rows = KINDS.iter().zip(tallies);
            let count = rows.find(|(kind, _)| kind.call == call);
            format!("{:>9}", count.map_or(0, |(_, tally)| tally.cases[index]))
        });
        print_row("", name, &counts[0], &counts[1..].join("  "));
    }
}

/// What later answers rest on: the request that made it and all edits since with their statuses,
/// each by its row of `KINDS`.
#[derive(Default)]
struct Basis {
    made: Option<(usize, Vec<u64>)>,
    edits: Vec<(usize, u64, Vec<u64>)>,
}

impl Basis {
    fn set(&mut self, row: usize, request: &[u64]) {
        self.made = Some((row, request.to_vec()));
        self.edits.clear();
    }

    fn edit(&mut self, row: usize, status: u64, request: &[u64]) {
        self.edits.push((row, status, request.to_vec()));
    }

    fn print(&self, title: &str) {
        let Some((row, request)) = &self.made else {
            return;
        };
        let kind = &KINDS[*row];
        println!("{title}, by request {} {}:", kind.call as u64, kind.name);
        print_lines(&describe_request(kind, request), None);
        for (row, status, request) in &self.edits {
            let kind = &KINDS[*row];
            let mut lines = describe_request(kind, request);
            lines.insert(0, format!("status = {status}"));
            let lines = lines.join(", ");
            println!("then by {} {}: {lines}", kind.call as u64, kind.name);
        }
    }
}

fn compare(requests: &str, a: &str, b: &str) -> Result<bool, String> {
    let mut requests = Stream::open(requests)?;
    let mut a = Side::open(a)?;
    let mut b = Side::open(b)?;
    let mut request = Vec::new();
    let mut zone = Basis::default();
    let mut region = Basis::default();
    let mut edges = Kept::default();
    let mut tallies = vec![Tally::default(); KINDS.len()];
    let mut compared: u64 = 0;
    let broken = loop {
        let next = read_request(&mut requests.words, &mut request);
        let row = match next.map_err(|e| requests.failed(e))? {
            Next::Request(row) => row,
            Next::End => break None,
            Next::Broken(reason) => break Some(reason),
        };
        let kind = &KINDS[row];
        a.read(kind, &request)?;
        b.read(kind, &request)?;
        if a.answer != b.answer || !a.whole || !b.whole {
            println!(
                "request {} (counted from 1) is answered differently: {} {}",
                compared + 1,
                kind.call as u64,
                kind.name
            );
            print_lines(&describe_request(kind, &request), None);
            match kind.call {
                Call::ZoneRest => zone.print("the zone kept"),
                Call::Put
                | Call::Insert
                | Call::Remove
                | Call::Turn
                | Call::Hold
                | Call::Rule
                | Call::HoldLent
                | Call::Region
                | Call::Contains
                | Call::ArcFirst
                | Call::ArcAll
                | Call::IsIntersectingArc
                | Call::GreatCircleAll
                | Call::ParallelFirst
                | Call::ParallelAll
                | Call::IsIntersectingParallel
                | Call::WriteFile
                | Call::SeamCount
                | Call::RangeCount => region.print("the region kept"),
                Call::Build
                | Call::ReadFile
                | Call::ReadStraight
                | Call::DoorContains
                | Call::DoorHold
                | Call::Root
                | Call::WholeRoot
                | Call::ZoneNew
                | Call::BoundingCone
                | Call::RegionValue
                | Call::SeamedValue
                | Call::CostliestOutline => {}
            }
            for (side, other) in [(&a, &b), (&b, &a)] {
                println!("answer in {}:", side.stream.path);
                let other = other.describe(kind, &request);
                print_lines(&side.describe(kind, &request), Some(&other));
            }
            return Ok(false);
        }
        tallies[row].add(kind, &request, &a.answer, &edges);
        let outcome = a.answer[0];
        match kind.call {
            Call::ZoneNew if outcome == status::DONE => zone.set(row, &request),
            Call::Build
            | Call::ReadFile
            | Call::ReadStraight
            | Call::RegionValue
            | Call::SeamedValue
            | Call::CostliestOutline
                if outcome == status::DONE =>
            {
                region.set(row, &request);
            }
            call if EDITS.contains(&call) => region.edit(row, outcome, &request),
            _ => {}
        }
        if outcome == status::DONE {
            edges.follow(kind.call, &request);
        }
        compared += 1;
    };
    for side in [&mut a.stream, &mut b.stream] {
        if !side.at_end()? {
            println!("{} goes on after answer {compared}, the last", side.path);
            return Ok(false);
        }
    }
    print_row("no.", "request", "count", "outcomes");
    for (kind, tally) in KINDS.iter().zip(&tallies) {
        tally.print(kind);
    }
    print_cases(&tallies);
    match broken {
        None => println!("compared {compared} requests, no difference"),
        // Both programs end there; whoever meant to send more must see it.
        Some(reason) => {
            println!("compared {compared} requests, no difference, and then no request: {reason}")
        }
    }
    Ok(true)
}

/// Prints lines, with a star at those that the other side has otherwise.
fn print_lines(lines: &[String], other: Option<&[String]>) {
    for (index, line) in lines.iter().enumerate() {
        let same = other.is_none_or(|other| other.get(index) == Some(line));
        println!("{} {line}", if same { ' ' } else { '*' });
    }
}
