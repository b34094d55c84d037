//! The files of the fixed list, each for all readers: a small one at every length, and with every
//! field damaged. They stand in the fixed list, not in a stage of the comparison, since the list is
//! also replayed where lengths have 32 bits.

use std::io::{self, Write};

use stream::{file_length, Call, POINT_BOUNDS, READERS};

use crate::draw::{stepped, NANS};
use crate::edges::{Kept, Point};
use crate::files::Draft;
use crate::fixed::{at, number, Place};
use crate::{write, write_bytes};

/// Both edges lie across the seam.
const CORNERS: [Place; 2] = [(300.0, 20.0), (10.0, -30.0)];

/// Inside the domain.
const ASKED: Place = (340.0, -60.0);

/// In front of corner 0 in every second file: an odd number of bytes that end as a file does.
const FRONT: [u8; 19] = [
    0xAA, 0x55, 0xFF, 1, 0, 0, 0, 0, 0, 0, 0, 1, 0, 0, 0, 56, 0, 0, 0,
];

/// The places of the trailer's fields.
const EDITION: usize = 0;
const FLAG: usize = 1;
const COUNT: usize = 2;
const DISTANCE: usize = 3;

/// What may be wrong with a file.
#[derive(Clone, Copy)]
enum Fault {
    /// Another value in a corner's field.
    Corner(usize, usize, f64),
    /// Another number in a field of the trailer.
    Trailer(usize, u32),
    /// Another count, with the distance that belongs to it.
    Counted(u32),
    /// So many bytes are missing in front, or, below 0, at the end.
    Cut(isize),
}

/// One for each test, in no order, and several for the corners.
const PAIRED: [Fault; 10] = [
    Fault::Corner(1, 4, f64::INFINITY),
    Fault::Trailer(DISTANCE, 97),
    Fault::Corner(0, 3, f64::NAN),
    Fault::Counted(0),
    Fault::Cut(1 + FRONT.len() as isize),
    Fault::Trailer(EDITION, 2),
    Fault::Corner(0, 0, 2.5),
    Fault::Counted(65),
    Fault::Trailer(FLAG, 2),
    Fault::Corner(1, 0, f64::NAN),
];

pub fn requests<W: Write>(out: &mut W) -> io::Result<()> {
    let corners: Vec<Point> = CORNERS.iter().map(at).collect();
    for front in [&[], FRONT.as_slice()] {
        let right = Draft::right(front.to_vec(), corners.clone(), 0);
        let length = right.bytes().len() as isize;
        for cut in -length..=length {
            ask(out, &faulty(&right, &[Fault::Cut(cut)]))?;
        }
        for fault in single(&right) {
            ask(out, &faulty(&right, &[fault]))?;
        }
        for (place, &fault) in PAIRED.iter().enumerate() {
            for &other in &PAIRED[..place] {
                ask(out, &faulty(&right, &[other, fault]))?;
            }
        }
    }
    number(out, Call::Region)
}

/// Every field with every value that may be taken for another or be let pass.
fn single(right: &Draft) -> Vec<Fault> {
    let mut all = Vec::new();
    for corner in 0..CORNERS.len() {
        for (field, (least, greatest)) in POINT_BOUNDS.into_iter().enumerate() {
            let beside = [
                stepped(least, -1),
                least,
                stepped(greatest, -1),
                greatest,
                stepped(greatest, 1),
                -0.0,
                f64::INFINITY,
                f64::NEG_INFINITY,
                // Its eight bytes are all different.
                f64::from_bits(0x3F12_3456_789A_BCDE),
            ];
            let nans = NANS.map(f64::from_bits);
            let values = beside.into_iter().chain(nans);
            all.extend(values.map(|value| Fault::Corner(corner, field, value)));
        }
    }
    let [edition, flag, count, distance] = right.trailer;
    let high = [1 << 8, 1 << 16, 1 << 24, 1 << 31];
    let mut put = |field, right: u32, others: &[u32]| {
        let others = others.iter().copied().chain(high.map(|bit| right | bit));
        all.extend(others.map(|number| Fault::Trailer(field, number)));
    };
    put(EDITION, edition, &[0, 2, 3, u32::MAX]);
    put(FLAG, flag, &[1, 2, 3, u32::MAX]);
    // 40 times 2^29 is 0 in 32 bits.
    let wrapped = count | 1 << 29;
    let counts = [0, 1, 3, 64, 65, 66, wrapped, u32::MAX];
    put(COUNT, count, &counts);
    let whole = distance + right.front.len() as u32;
    let near = [1, 8, 16, 40].map(|off| [distance - off, distance + off]);
    let far = [0, 16, whole, distance.swap_bytes(), u32::MAX];
    put(DISTANCE, distance, &[near.as_flattened(), &far].concat());
    all.extend(counts.map(Fault::Counted));
    all
}

/// The bytes of a file with these faults.
fn faulty(right: &Draft, faults: &[Fault]) -> Vec<u8> {
    let mut draft = right.clone();
    let mut cuts = Vec::new();
    for &fault in faults {
        match fault {
            Fault::Corner(corner, field, value) => draft.corners[corner][field] = value,
            Fault::Trailer(field, number) => draft.trailer[field] = number,
            Fault::Counted(count) => {
                draft.trailer[COUNT] = count;
                draft.trailer[DISTANCE] = file_length(count as usize) as u32;
            }
            Fault::Cut(cut) => cuts.push(cut),
        }
    }
    let mut bytes = draft.bytes();
    for cut in cuts {
        if cut < 0 {
            bytes.truncate(bytes.len() - cut.unsigned_abs());
        } else {
            drop(bytes.drain(..cut.unsigned_abs()));
        }
    }
    bytes
}

/// By every reader; of a region read, all that it holds.
fn ask<W: Write>(out: &mut W, file: &[u8]) -> io::Result<()> {
    let read = Kept::read(file).is_some();
    for reader in READERS {
        number(out, reader)?;
        write_bytes(out, file)?;
        match reader {
            Call::DoorContains | Call::DoorHold => write(out, &at(&ASKED))?,
            _ if read => {
                number(out, Call::Region)?;
                number(out, Call::SeamCount)?;
            }
            _ => {}
        }
    }
    Ok(())
}
