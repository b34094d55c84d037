//! What the programs share: the two streams of 64-bit little-endian words, the table of requests,
//! the refusals and the bounds that the scope sets, the layout of the region file and the outline
//! that costs most.
//!
//! A further request is a case of `Call` and a row of `KINDS`, with a case of `Part` where its
//! words are laid out as no other request's are; the compiler then asks for its answer.

pub mod outline;

use std::f64::consts::PI;
use std::io::{self, Read, Write};

pub const TWO_PI: f64 = 2.0 * PI;
pub const HALF_PI: f64 = 0.5 * PI;

/// The most points a call takes.
pub const MOST_POINTS: u64 = 64;

/// The most points a request may give; those past `MOST_POINTS` are read and dropped. Also the most
/// bytes that it may lend.
pub const MOST_GIVEN: u64 = 4096;

/// Words of a point: x, y, z, lon, lat.
pub const POINT_WORDS: usize = 5;

/// Words of a vector: x, y, z.
pub const VECTOR_WORDS: usize = 3;

/// A vector's fields are a point's first ones.
const FIELDS: [&str; POINT_WORDS] = ["x", "y", "z", "lon", "lat"];

/// Least and greatest value.
pub type Interval = (f64, f64);

/// Where each of a vector's fields may lie.
pub const VECTOR_BOUNDS: [Interval; VECTOR_WORDS] = [(-2.0, 2.0); VECTOR_WORDS];

/// Where each of a point's fields may lie.
pub const POINT_BOUNDS: [Interval; POINT_WORDS] = [
    VECTOR_BOUNDS[0],
    VECTOR_BOUNDS[1],
    VECTOR_BOUNDS[2],
    (0.0, TWO_PI),
    (-HALF_PI, HALF_PI),
];

/// Where a parallel's latitude, sine and cosine may lie.
pub const PARALLEL_BOUNDS: [Interval; 3] = [POINT_BOUNDS[4], (-1.0, 1.0), (-1.0, 1.0)];

/// The pole rules, by their numbers in a request.
pub const RULES: [&str; 6] = [
    "Default",
    "DefaultComplement",
    "ContainsSouthPole",
    "DoNotContainsSouthPole",
    "ControlPointIn",
    "ControlPointOut",
];

/// The first of the two rules that read the control point.
pub const CONTROL_POINT_IN: u64 = 4;

/// What a region file's trailer begins with.
pub const EDITION: u32 = 1;

/// Bytes of a region file's trailer: edition, flag, count and distance.
pub const TRAILER_BYTES: usize = 16;

/// What a C door adds to a refusal's number.
pub const DOOR_REFUSES: u64 = 16;

/// How every NaN is written in an answer.
const ANSWERED_NAN: u64 = 0x7FF8_0000_0000_0000;

/// Status words: 0, or the number of the refusal.
pub mod status {
    pub const DONE: u64 = 0;
    pub const OUTSIDE_DOMAIN: u64 = 1;
    pub const NONE_GIVEN: u64 = 2;
    pub const TOO_MANY: u64 = 3;
    pub const NO_SUCH_INDEX: u64 = 4;
    pub const NO_PARALLEL: u64 = 5;
    pub const NOT_FINITE: u64 = 6;
    pub const WRONG_TRAILER: u64 = 7;
    pub const TOO_SHORT: u64 = 8;
    pub const ZONE_BOUNDS: u64 = 9;

    /// Words that follow a refusal: an index, a length, or nothing.
    pub fn words_after(refusal: u64) -> usize {
        match refusal {
            OUTSIDE_DOMAIN | TOO_SHORT => 1,
            _ => 0,
        }
    }
}

/// Whether each value is within its bounds, both included. A NaN is within none.
pub fn within<const N: usize>(values: &[f64; N], bounds: &[Interval; N]) -> bool {
    values
        .iter()
        .zip(bounds)
        .all(|(value, (least, greatest))| (*least..=*greatest).contains(value))
}

/// Whether every assertion of upstream's `Zone::new` holds. A NaN fails one.
pub fn zone_bounds_hold(lon_min: f64, lat_min: f64, lon_max: f64, lat_max: f64) -> bool {
    (0.0..TWO_PI).contains(&lon_min)
        && 0.0 < lon_max
        && lon_max <= TWO_PI
        && (-HALF_PI..HALF_PI).contains(&lat_min)
        && -HALF_PI < lat_max
        && lat_max <= HALF_PI
        && lat_min < lat_max
}

/// The calls, by their numbers in a request stream.
#[derive(Clone, Copy, Debug, PartialEq, Eq)]
#[repr(u64)]
pub enum Call {
    Build = 1,
    Put = 2,
    Insert = 3,
    Remove = 4,
    Turn = 5,
    Hold = 6,
    Rule = 7,
    HoldLent = 8,
    Region = 9,
    Contains = 10,
    ArcFirst = 11,
    ArcAll = 12,
    IsIntersectingArc = 13,
    GreatCircleAll = 14,
    ParallelFirst = 15,
    ParallelAll = 16,
    IsIntersectingParallel = 17,
    WriteFile = 18,
    ReadFile = 19,
    DoorContains = 20,
    DoorHold = 21,
    Root = 22,
    ZoneNew = 23,
    ZoneRest = 24,
    BoundingCone = 25,
    RegionValue = 26,
    SeamCount = 27,
    SeamedValue = 28,
    ReadStraight = 29,
    RangeCount = 30,
    CostliestOutline = 31,
    WholeRoot = 32,
}

/// The calls that change the region kept; a refused one leaves it.
pub const EDITS: [Call; 7] = [
    Call::Put,
    Call::Insert,
    Call::Remove,
    Call::Turn,
    Call::Hold,
    Call::Rule,
    Call::HoldLent,
];

/// The calls that are asked of a region file. The doors stand between the two reads, so that, in turn
/// from any one of the four on, each read comes first as often as the other.
pub const READERS: [Call; 4] = [
    Call::ReadFile,
    Call::DoorContains,
    Call::ReadStraight,
    Call::DoorHold,
];

/// A group of words in a request or an answer.
pub enum Part {
    Double(&'static str),
    /// 0 or 1.
    YesNo(&'static str),
    /// 0, or any other number for yes.
    Flag(&'static str),
    /// A rule's number.
    Rule(&'static str),
    /// Any number: a corner's place, a length.
    Number(&'static str),
    /// How many there are of something.
    Tally(&'static str),
    /// What a C door returned.
    Returned(&'static str),
    /// How many entries the lists after it have.
    Count(&'static str),
    /// The same, but 0 or 1.
    Found(&'static str),
    /// Any number: how many entries of the lists after it count.
    InUse(&'static str),
    Points(&'static str, Entries),
    Vectors(&'static str, Entries),
    /// How many bytes the request lends.
    Lent(&'static str),
    /// The bytes lent: a region file, which stands at their end.
    File(&'static str),
    /// The bytes lent, with a region file at their front.
    Output(&'static str),
}

/// How many entries a list has.
pub enum Entries {
    One,
    Counted,
    Most,
}

impl Entries {
    fn number(&self, count: usize) -> usize {
        match self {
            Entries::One => 1,
            Entries::Counted => count,
            Entries::Most => MOST_POINTS as usize,
        }
    }
}

/// What an answer begins with.
#[derive(PartialEq, Eq)]
pub enum Outcome {
    /// A status word; the answer's parts follow a status of 0 alone.
    Status,
    /// No status, a double at once.
    Double,
    /// No status, a whole root and its remainder at once.
    WholeRoot,
    /// No status, what a C door returned at once.
    Door,
}

pub struct Kind {
    pub call: Call,
    pub name: &'static str,
    /// After the request's number.
    pub request: &'static [Part],
    pub outcome: Outcome,
    pub answer: &'static [Part],
}

const PLACE: &[Part] = &[Part::Number("i"), Part::Points("point", Entries::One)];

const POINT: &[Part] = &[Part::Points("point", Entries::One)];

const ARC: &[Part] = &[
    Part::Points("a", Entries::One),
    Part::Points("b", Entries::One),
];

const PARALLEL: &[Part] = &[
    Part::Double("lat"),
    Part::Double("sine"),
    Part::Double("cosine"),
];

const FIRST: &[Part] = &[
    Part::Found("point"),
    Part::Vectors("crossing", Entries::Counted),
];

const ALL: &[Part] = &[
    Part::Count("length"),
    Part::Vectors("crossing", Entries::Counted),
];

const IS_INTERSECTING: &[Part] = &[Part::YesNo("is intersecting")];

const FILE: &[Part] = &[Part::Lent("L"), Part::File("file")];

const DOOR: &[Part] = &[
    Part::Lent("L"),
    Part::File("file"),
    Part::Points("point", Entries::One),
];

pub const KINDS: &[Kind] = &[
    Kind {
        call: Call::Build,
        name: "build",
        request: &[
            Part::Count("n"),
            Part::Rule("rule"),
            Part::Points("control point", Entries::One),
            Part::Points("corner", Entries::Counted),
        ],
        outcome: Outcome::Status,
        answer: &[],
    },
    Kind {
        call: Call::Put,
        name: "put",
        request: PLACE,
        outcome: Outcome::Status,
        answer: &[],
    },
    Kind {
        call: Call::Insert,
        name: "insert",
        request: PLACE,
        outcome: Outcome::Status,
        answer: &[],
    },
    Kind {
        call: Call::Remove,
        name: "remove",
        request: &[Part::Number("i")],
        outcome: Outcome::Status,
        answer: &[],
    },
    Kind {
        call: Call::Turn,
        name: "turn",
        request: &[],
        outcome: Outcome::Status,
        answer: &[],
    },
    Kind {
        call: Call::Hold,
        name: "hold, by value",
        request: POINT,
        outcome: Outcome::Status,
        answer: &[],
    },
    Kind {
        call: Call::Rule,
        name: "rule",
        request: &[
            Part::Rule("rule"),
            Part::Points("control point", Entries::One),
        ],
        outcome: Outcome::Status,
        answer: &[],
    },
    Kind {
        call: Call::HoldLent,
        name: "hold, on the lent region",
        request: POINT,
        outcome: Outcome::Status,
        answer: &[],
    },
    Kind {
        call: Call::Region,
        name: "the region",
        request: &[],
        outcome: Outcome::Status,
        answer: &[
            Part::Count("count"),
            Part::YesNo("flag"),
            Part::Points("corner", Entries::Counted),
            Part::Vectors("normal", Entries::Counted),
        ],
    },
    Kind {
        call: Call::Contains,
        name: "contains",
        request: POINT,
        outcome: Outcome::Status,
        answer: &[Part::YesNo("contains")],
    },
    Kind {
        call: Call::ArcFirst,
        name: "arc, first",
        request: ARC,
        outcome: Outcome::Status,
        answer: FIRST,
    },
    Kind {
        call: Call::ArcAll,
        name: "arc, all",
        request: ARC,
        outcome: Outcome::Status,
        answer: ALL,
    },
    Kind {
        call: Call::IsIntersectingArc,
        name: "is intersecting, arc",
        request: ARC,
        outcome: Outcome::Status,
        answer: IS_INTERSECTING,
    },
    Kind {
        call: Call::GreatCircleAll,
        name: "great circle, all",
        request: &[Part::Vectors("normal", Entries::One)],
        outcome: Outcome::Status,
        answer: ALL,
    },
    Kind {
        call: Call::ParallelFirst,
        name: "parallel, first",
        request: PARALLEL,
        outcome: Outcome::Status,
        answer: FIRST,
    },
    Kind {
        call: Call::ParallelAll,
        name: "parallel, all",
        request: PARALLEL,
        outcome: Outcome::Status,
        answer: ALL,
    },
    Kind {
        call: Call::IsIntersectingParallel,
        name: "is intersecting, parallel",
        request: PARALLEL,
        outcome: Outcome::Status,
        answer: IS_INTERSECTING,
    },
    Kind {
        call: Call::WriteFile,
        name: "write the region file",
        request: &[Part::Lent("m")],
        outcome: Outcome::Status,
        answer: &[Part::Number("length returned"), Part::Output("output")],
    },
    Kind {
        call: Call::ReadFile,
        name: "read a region file",
        request: FILE,
        outcome: Outcome::Status,
        answer: &[],
    },
    Kind {
        call: Call::DoorContains,
        name: "C door, contains",
        request: DOOR,
        outcome: Outcome::Door,
        answer: &[Part::Returned("returned")],
    },
    Kind {
        call: Call::DoorHold,
        name: "C door, hold",
        request: DOOR,
        outcome: Outcome::Door,
        answer: &[Part::Returned("returned"), Part::File("file")],
    },
    Kind {
        call: Call::Root,
        name: "root",
        request: &[Part::Double("x")],
        outcome: Outcome::Double,
        answer: &[Part::Double("root")],
    },
    Kind {
        call: Call::ZoneNew,
        name: "zone, new",
        request: &[
            Part::Double("lon_min"),
            Part::Double("lat_min"),
            Part::Double("lon_max"),
            Part::Double("lat_max"),
        ],
        outcome: Outcome::Status,
        answer: &[],
    },
    Kind {
        call: Call::ZoneRest,
        name: "zone, the rest",
        request: &[Part::Double("a"), Part::Double("b"), Part::Double("c")],
        outcome: Outcome::Status,
        answer: &[
            Part::Double("dlon"),
            Part::YesNo("crossed_vertically"),
            Part::YesNo("crossed_horizontally"),
            Part::YesNo("is_lon_range_compatible"),
            Part::YesNo("contains"),
            Part::YesNo("contains_exclusive"),
            Part::Double("vertex 0 lon"),
            Part::Double("vertex 0 lat"),
            Part::Double("vertex 1 lon"),
            Part::Double("vertex 1 lat"),
            Part::Double("vertex 2 lon"),
            Part::Double("vertex 2 lat"),
            Part::Double("vertex 3 lon"),
            Part::Double("vertex 3 lat"),
        ],
    },
    Kind {
        call: Call::BoundingCone,
        name: "bounding cone",
        request: &[Part::Count("n"), Part::Points("point", Entries::Counted)],
        outcome: Outcome::Status,
        answer: &[
            Part::Double("centre x"),
            Part::Double("centre y"),
            Part::Double("centre z"),
            Part::Double("largest squared chord"),
        ],
    },
    Kind {
        call: Call::RegionValue,
        name: "a region value handed in",
        request: &[
            Part::InUse("count"),
            Part::Flag("flag"),
            Part::Points("corner", Entries::Most),
            Part::Vectors("normal", Entries::Most),
        ],
        outcome: Outcome::Status,
        answer: &[],
    },
    Kind {
        call: Call::SeamCount,
        name: "the seam count",
        request: &[],
        outcome: Outcome::Status,
        answer: &[Part::Tally("seam count")],
    },
    Kind {
        call: Call::SeamedValue,
        name: "the same, with its seam count",
        request: &[
            Part::InUse("count"),
            Part::Flag("flag"),
            Part::Number("seam count"),
            Part::Points("corner", Entries::Most),
            Part::Vectors("normal", Entries::Most),
        ],
        outcome: Outcome::Status,
        answer: &[],
    },
    Kind {
        call: Call::ReadStraight,
        name: "read a region file straight",
        request: FILE,
        outcome: Outcome::Status,
        answer: &[],
    },
    Kind {
        call: Call::RangeCount,
        name: "contains, edges in range",
        request: POINT,
        outcome: Outcome::Status,
        answer: &[Part::YesNo("contains"), Part::Tally("edges in range")],
    },
    Kind {
        call: Call::CostliestOutline,
        name: "the outline that costs most",
        request: &[Part::Number("n")],
        outcome: Outcome::Status,
        answer: POINT,
    },
    Kind {
        call: Call::WholeRoot,
        name: "whole root",
        request: &[Part::Number("n")],
        outcome: Outcome::WholeRoot,
        answer: &[Part::Number("root"), Part::Number("remainder")],
    },
];

/// The row of `KINDS` with this number.
#[inline]
fn row_of(number: u64) -> Option<usize> {
    KINDS.iter().position(|kind| kind.call as u64 == number)
}

// Bytes and the region file

/// The words that hold bytes in order, the last one filled up with zero bytes.
pub fn words_of(bytes: &[u8]) -> Vec<u64> {
    bytes
        .chunks(WORD)
        .map(|chunk| {
            let mut word = [0; WORD];
            word[..chunk.len()].copy_from_slice(chunk);
            u64::from_le_bytes(word)
        })
        .collect()
}

fn bytes_of(words: &[u64]) -> Vec<u8> {
    words.iter().flat_map(|word| word.to_le_bytes()).collect()
}

/// The bytes that a request begins with, and its words after them.
pub fn bytes_and_rest(request: &[u64]) -> (Vec<u8>, &[u64]) {
    let length = request[0] as usize;
    let (words, rest) = request[1..].split_at(length.div_ceil(WORD));
    let mut bytes = bytes_of(words);
    bytes.truncate(length);
    (bytes, rest)
}

/// How long a region file of that many corners is.
pub fn file_length(count: usize) -> usize {
    count * POINT_WORDS * WORD + TRAILER_BYTES
}

/// Edition, flag, count and distance; none where a file is too short for them.
pub fn trailer(file: &[u8]) -> Option<[u32; 4]> {
    let trailer = u128::from_le_bytes(*file.last_chunk::<TRAILER_BYTES>()?);
    Some([0, 32, 64, 96].map(|shift| (trailer >> shift) as u32))
}

/// The words of the corners that stand before a file's trailer; there must be that many.
pub fn corner_words(file: &[u8], count: usize) -> Vec<u64> {
    let first = file.len() - file_length(count);
    words_of(&file[first..file.len() - TRAILER_BYTES])
}

/// Reads a stream word by word.
pub struct Words<R> {
    input: R,
    buffer: Box<[u8]>,
    at: usize,
    end: usize,
}

const WORD: usize = 8;
const BUFFER: usize = 1 << 20;

impl<R: Read> Words<R> {
    pub fn new(input: R) -> Self {
        Words {
            input,
            buffer: vec![0; BUFFER].into_boxed_slice(),
            at: 0,
            end: 0,
        }
    }

    /// The next word, or none where the stream ends before it is whole.
    #[inline]
    pub fn word(&mut self) -> io::Result<Option<u64>> {
        if self.left_over() < WORD {
            self.refill()?;
        }
        let Some(bytes) = self.buffer[self.at..self.end].first_chunk() else {
            return Ok(None);
        };
        let word = u64::from_le_bytes(*bytes);
        self.at += WORD;
        Ok(Some(word))
    }

    /// Bytes that were read and not yet handed on; once `word` gave none, what the stream holds
    /// after its last whole word.
    pub fn left_over(&self) -> usize {
        self.end - self.at
    }

    /// Reads on until a whole word is there or the stream ends.
    #[cold]
    fn refill(&mut self) -> io::Result<()> {
        self.buffer.copy_within(self.at..self.end, 0);
        self.end -= self.at;
        self.at = 0;
        while self.end < WORD {
            match self.input.read(&mut self.buffer[self.end..]) {
                Ok(0) => break,
                Ok(read) => self.end += read,
                Err(e) if e.kind() == io::ErrorKind::Interrupted => {}
                Err(e) => return Err(e),
            }
        }
        Ok(())
    }
}

/// What stands next in a request stream.
pub enum Next {
    /// A whole request, by its row of `KINDS`.
    Request(usize),
    /// Nothing: the stream ends after the request before.
    End,
    /// Something that ends the program, said in words.
    Broken(String),
}

/// Reads the next request; its words after the number replace those of `request`.
pub fn read_request<R: Read>(words: &mut Words<R>, request: &mut Vec<u64>) -> io::Result<Next> {
    request.clear();
    let Some(number) = words.word()? else {
        return Ok(match words.left_over() {
            0 => Next::End,
            _ => Next::Broken("the stream ends inside a request's number".to_string()),
        });
    };
    let Some(row) = row_of(number) else {
        return Ok(Next::Broken(format!("{number} is no request")));
    };
    Ok(match read_parts(words, KINDS[row].request, 0, request)? {
        Taken::Whole => Next::Request(row),
        Taken::Cut => Next::Broken(format!("the stream ends inside a request {number}")),
        Taken::Unknown(name, word) => {
            Next::Broken(format!("{number} with {name} = {word} is no request"))
        }
    })
}

/// Reads the answer to this request of this kind, its status included; false where the stream ends
/// before it is whole, or where it is none.
pub fn read_answer<R: Read>(
    words: &mut Words<R>,
    kind: &Kind,
    request: &[u64],
    answer: &mut Vec<u64>,
) -> io::Result<bool> {
    answer.clear();
    if kind.outcome == Outcome::Status {
        let Some(status) = words.word()? else {
            return Ok(false);
        };
        answer.push(status);
        if status != status::DONE {
            return take(words, status::words_after(status), answer);
        }
    }
    Ok(matches!(
        read_parts(words, kind.answer, lent(kind, request), answer)?,
        Taken::Whole
    ))
}

/// How many bytes a request lends.
fn lent(kind: &Kind, request: &[u64]) -> usize {
    match kind.request.first() {
        Some(Part::Lent(_)) => request[0] as usize,
        _ => 0,
    }
}

enum Taken {
    Whole,
    Cut,
    /// A number of this name that is too large.
    Unknown(&'static str, u64),
}

fn read_parts<R: Read>(
    words: &mut Words<R>,
    parts: &[Part],
    mut lent: usize,
    into: &mut Vec<u64>,
) -> io::Result<Taken> {
    let mut count = 0;
    for part in parts {
        let needed = match part {
            Part::Points(_, entries) => POINT_WORDS * entries.number(count),
            Part::Vectors(_, entries) => VECTOR_WORDS * entries.number(count),
            Part::File(_) | Part::Output(_) => lent.div_ceil(WORD),
            _ => 1,
        };
        if !take(words, needed, into)? {
            return Ok(Taken::Cut);
        }
        let (name, greatest) = match part {
            Part::Count(name) | Part::Lent(name) => (name, MOST_GIVEN),
            Part::Found(name) => (name, 1),
            Part::Rule(name) => (name, RULES.len() as u64 - 1),
            _ => continue,
        };
        let word = into[into.len() - 1];
        if word > greatest {
            return Ok(Taken::Unknown(name, word));
        }
        match part {
            Part::Rule(_) => {}
            Part::Lent(_) => lent = word as usize,
            _ => count = word as usize,
        }
    }
    Ok(Taken::Whole)
}

#[inline]
fn take<R: Read>(words: &mut Words<R>, needed: usize, into: &mut Vec<u64>) -> io::Result<bool> {
    for _ in 0..needed {
        let Some(word) = words.word()? else {
            return Ok(false);
        };
        into.push(word);
    }
    Ok(true)
}

#[inline]
pub fn write_word<W: Write>(out: &mut W, word: u64) -> io::Result<()> {
    out.write_all(&word.to_le_bytes())
}

/// A double as an answer has it.
#[inline]
pub fn answered(value: f64) -> u64 {
    if value.is_nan() {
        ANSWERED_NAN
    } else {
        value.to_bits()
    }
}

/// A request's words after its number, for a reader.
pub fn describe_request(kind: &Kind, request: &[u64]) -> Vec<String> {
    describe(kind.request, 0, request)
}

/// The words of the answer to this request, for a reader.
pub fn describe_answer(kind: &Kind, request: &[u64], answer: &[u64]) -> Vec<String> {
    let lent = lent(kind, request);
    if kind.outcome != Outcome::Status {
        return describe(kind.answer, lent, answer);
    }
    let Some((&status, rest)) = answer.split_first() else {
        return Vec::new();
    };
    let mut lines = vec![format!("status = {status}")];
    if status == status::DONE {
        lines.extend(describe(kind.answer, lent, rest));
    } else {
        lines.extend(rest.iter().map(|word| format!("then {word}")));
    }
    lines
}

/// One line for each word or entry, as far as there are words.
fn describe(parts: &[Part], mut lent: usize, words: &[u64]) -> Vec<String> {
    let mut lines = Vec::new();
    let mut words = words;
    let mut count = 0;
    for part in parts {
        let (name, size, entries) = match part {
            Part::Points(name, entries) => (name, POINT_WORDS, entries),
            Part::Vectors(name, entries) => (name, VECTOR_WORDS, entries),
            Part::File(name) | Part::Output(name) => {
                let (held, rest) = words.split_at(lent.div_ceil(WORD).min(words.len()));
                words = rest;
                let held = bytes_of(held);
                let (bytes, filling) = held.split_at(lent.min(held.len()));
                lines.extend(match part {
                    Part::File(_) => describe_file(name, bytes),
                    _ => describe_bytes(name, 0, bytes),
                });
                if filling.iter().any(|&byte| byte != 0) {
                    lines.extend(describe_bytes(&format!("{name}'s filling"), lent, filling));
                }
                continue;
            }
            Part::Double(name)
            | Part::YesNo(name)
            | Part::Flag(name)
            | Part::Rule(name)
            | Part::Number(name)
            | Part::Tally(name)
            | Part::Returned(name)
            | Part::Count(name)
            | Part::Found(name)
            | Part::InUse(name)
            | Part::Lent(name) => {
                let Some((&word, rest)) = words.split_first() else {
                    break;
                };
                words = rest;
                lines.push(match part {
                    Part::Double(_) => describe_double(name, word),
                    _ => format!("{name} = {word}"),
                });
                match part {
                    Part::Count(_) | Part::Found(_) | Part::InUse(_) => count = word as usize,
                    Part::Lent(_) => lent = word as usize,
                    _ => {}
                }
                continue;
            }
        };
        let there = entries.number(count).min(words.len() / size);
        let (list, rest) = words.split_at(there * size);
        words = rest;
        let shown = match entries {
            Entries::One => there,
            Entries::Counted | Entries::Most => there.min(count).min(MOST_POINTS as usize),
        };
        for (index, entry) in list.chunks_exact(size).take(shown).enumerate() {
            let fields = describe_fields(entry);
            lines.push(match entries {
                Entries::One => format!("{name}: {fields}"),
                Entries::Counted | Entries::Most => format!("{name} {index}: {fields}"),
            });
        }
        if there > shown {
            lines.push(format!("{name}: {} more that do not count", there - shown));
        }
    }
    lines
}

/// A point's or a vector's fields.
pub fn describe_fields(words: &[u64]) -> String {
    let fields: Vec<String> = FIELDS
        .iter()
        .zip(words)
        .map(|(field, &word)| describe_double(field, word))
        .collect();
    fields.join(", ")
}

/// A file as its end says: what may be corners, by the byte that each begins at, and the trailer.
fn describe_file(name: &str, file: &[u8]) -> Vec<String> {
    let Some([edition, flag, count, distance]) = trailer(file) else {
        return describe_bytes(name, 0, file);
    };
    let before = file.len() - TRAILER_BYTES;
    let front = before % (POINT_WORDS * WORD);
    let corners = words_of(&file[front..before]);
    let mut lines = describe_bytes(name, 0, &file[..front]);
    for (index, corner) in corners.chunks_exact(POINT_WORDS).enumerate() {
        let at = front + index * POINT_WORDS * WORD;
        lines.push(format!("{name} at {at}: {}", describe_fields(corner)));
    }
    lines.push(format!(
        "{name} at {before}: edition {edition}, flag {flag}, count {count}, distance {distance}"
    ));
    lines
}

/// As many bytes in a line as a corner has, the first one counted as this.
fn describe_bytes(name: &str, first: usize, bytes: &[u8]) -> Vec<String> {
    bytes
        .chunks(POINT_WORDS * WORD)
        .enumerate()
        .map(|(index, line)| {
            let at = first + index * POINT_WORDS * WORD;
            let digits: String = line.iter().map(|byte| format!(" {byte:02X}")).collect();
            format!("{name} at {at}:{digits}")
        })
        .collect()
}

fn describe_double(name: &str, word: u64) -> String {
    format!("{name} = {:?} ({word:016X})", f64::from_bits(word))
}
