//! The region file and the C doors, written from the scope, as upstream has neither.

use stream::{corner_words, file_length, status, trailer, DOOR_REFUSES, EDITION};
use upstream::sph_geom::Polygon;

use crate::record::{afresh, Region};
use crate::{count_fits, fields, point, points, Answer, Refusal};

/// What every byte of a lent output holds before the call.
pub const UNTOUCHED: u8 = 0xAA;

/// Where the trailer's flag begins and ends, counted back from the end of the file.
const FLAG_FROM_END: (usize, usize) = (12, 8);

/// Fills the front of the output and gives the file's length.
pub fn write(region: &Polygon, output: &mut [u8]) -> Answer<u64> {
    let count = region.vertices.len();
    let length = file_length(count);
    if output.len() < length {
        return Err(Refusal::With(status::TOO_SHORT, length as u64));
    }
    let flag = u32::from(region.contains_south_pole);
    let corners = region.vertices.iter().flat_map(fields);
    let bytes = corners.flat_map(u64::to_le_bytes).chain(
        [EDITION, flag, count as u32, length as u32]
            .into_iter()
            .flat_map(u32::to_le_bytes),
    );
    for (to, byte) in output.iter_mut().zip(bytes) {
        *to = byte;
    }
    Ok(length as u64)
}

/// The region that upstream builds of a file's corners and flag.
pub fn read(file: &[u8]) -> Answer<Polygon> {
    let wrong = Refusal::Alone(status::WRONG_TRAILER);
    let [edition, flag, count, distance] = trailer(file).ok_or(wrong)?;
    if edition != EDITION || flag > 1 {
        return Err(wrong);
    }
    count_fits(count.into())?;
    let length = file_length(count as usize);
    if distance as usize != length || file.len() < length {
        return Err(wrong);
    }
    let corners = points(count.into(), &corner_words(file, count as usize))?;
    Ok(afresh(corners, flag == 1))
}

/// The point is the first words.
pub fn contains(file: &[u8], words: &[u64]) -> Answer<u64> {
    let region = read(file)?;
    Ok(region.contains(&point(words, 0)?).into())
}

/// Sets the flag field alone, and only where it is not refused.
pub fn hold(file: &mut [u8], words: &[u64]) -> Answer<u64> {
    let mut region = Region::read(read(file)?);
    region.hold(words)?;
    let flag = u32::from(region.polygon.contains_south_pole);
    let (begin, end) = FLAG_FROM_END;
    let length = file.len();
    file[length - begin..length - end].copy_from_slice(&flag.to_le_bytes());
    Ok(0)
}

/// What a C door returns: of a refusal only its number.
pub fn returned(answer: Answer<u64>) -> u64 {
    match answer {
        Ok(word) => word,
        Err(Refusal::Alone(number) | Refusal::With(number, _)) => DOOR_REFUSES + number,
    }
}
