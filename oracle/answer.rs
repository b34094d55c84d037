//! answer: reads requests from standard input and writes upstream's answers to standard output.
//! The refusals, which upstream does not have, are written here from the scope's table.

mod poles;
mod ranges;
mod record;
mod region_file;
mod statements;

use std::io::{self, BufWriter, Write};
use std::process::ExitCode;

use record::Region;
use statements::Tried;
use stream::{
    answered, bytes_and_rest, outline, read_request, status, within, words_of, write_word,
    zone_bounds_hold, Call, Next, Outcome, Words, KINDS, MOST_POINTS, PARALLEL_BOUNDS,
    POINT_BOUNDS, POINT_WORDS, VECTOR_BOUNDS, VECTOR_WORDS,
};
use upstream::sph_geom::cone::Cone;
use upstream::sph_geom::coo3d::{Coo3D, LonLatT, UnitVect3, Vec3, Vect3};
use upstream::sph_geom::zone::Zone;
use upstream::sph_geom::Polygon;

/// A refusal's number, and the word that follows it where one does.
#[derive(Clone, Copy)]
enum Refusal {
    Alone(u64),
    With(u64, u64),
}

type Answer<T> = Result<T, Refusal>;

/// What is kept from one request to the next.
struct Kept {
    /// A value of a wrong count is the refusal that every call on it gives.
    region: Answer<Region>,
    zone: Option<Zone>,
}

fn main() -> ExitCode {
    match answer_all() {
        Ok(()) => ExitCode::SUCCESS,
        Err(e) => {
            eprintln!("answer: {e}");
            ExitCode::FAILURE
        }
    }
}

fn answer_all() -> io::Result<()> {
    let mut words = Words::new(io::stdin().lock());
    let mut out = BufWriter::with_capacity(1 << 20, io::stdout().lock());
    let mut request = Vec::new();
    let mut answer = Vec::new();
    let mut kept = Kept {
        region: Err(Refusal::Alone(status::NONE_GIVEN)),
        zone: None,
    };
    let mut tried = Tried::default();
    // A request that is not whole or not known ends the program, as the end of the input does.
    while let Next::Request(row) = read_request(&mut words, &mut request)? {
        let kind = &KINDS[row];
        answer.clear();
        if kind.outcome == Outcome::Status {
            answer.push(status::DONE);
        }
        if let Err(refusal) = answer_one(kind.call, &request, &mut kept, &mut answer) {
            answer.clear();
            match refusal {
                Refusal::Alone(number) => answer.push(number),
                Refusal::With(number, word) => answer.extend([number, word]),
            }
        }
        for &word in &answer {
            write_word(&mut out, word)?;
        }
        try_statements(kind.call, &request, &kept, &mut tried).map_err(io::Error::other)?;
    }
    tried.print();
    out.flush()
}

/// Where a request has a point and there is a region to ask, its own file's or the one now kept,
/// and where it drew an outline.
fn try_statements(
    call: Call,
    request: &[u64],
    kept: &Kept,
    tried: &mut Tried,
) -> Result<(), String> {
    match call {
        Call::Contains | Call::RangeCount | Call::Hold | Call::HoldLent => {
            if let (Ok(region), Ok(point)) = (&kept.region, point(request, 0)) {
                tried.at(region, &point)?;
            }
        }
        Call::DoorContains | Call::DoorHold => {
            let (mut file, words) = bytes_and_rest(request);
            if matches!(call, Call::DoorHold) && region_file::hold(&mut file, words).is_err() {
                return Ok(());
            }
            if let (Ok(polygon), Ok(point)) = (region_file::read(&file), point(words, 0)) {
                tried.at(&Region::read(polygon), &point)?;
            }
        }
        Call::CostliestOutline => {
            let count = request[0];
            if let (Ok(region), Ok(())) = (&kept.region, count_fits(count)) {
                tried.outline(region, count, &coo(outline::ABREAST))?;
            }
        }
        _ => {}
    }
    Ok(())
}

/// Adds what follows a status of 0; what it adds before it refuses does not count.
fn answer_one(call: Call, request: &[u64], kept: &mut Kept, answer: &mut Vec<u64>) -> Answer<()> {
    match call {
        Call::Build => kept.region = Ok(Region::built(build(request)?)),
        Call::Put => edited(kept)?.put(request[0], &request[1..])?,
        Call::Insert => edited(kept)?.insert(request[0], &request[1..])?,
        Call::Remove => edited(kept)?.remove(request[0])?,
        Call::Turn => edited(kept)?.turn(),
        Call::Hold | Call::HoldLent => edited(kept)?.hold(request)?,
        Call::Rule => edited(kept)?.rule(request[0], &request[1..])?,
        Call::Region => dump(region(kept)?, answer),
        Call::Contains | Call::RangeCount => {
            let region = region(kept)?;
            let point = point(request, 0)?;
            answer.push(u64::from(region.contains(&point)));
            if call == Call::RangeCount {
                answer.push(record::edges_in_range(region, &point));
            }
        }
        Call::ArcFirst => {
            let region = region(kept)?;
            let [a, b] = arc(request)?;
            first(region.intersect_great_circle_arc(&a, &b), answer)?;
        }
        Call::ArcAll => {
            let region = region(kept)?;
            let [a, b] = arc(request)?;
            all(&region.intersect_great_circle_arc_all(&a, &b), answer)?;
        }
        Call::IsIntersectingArc => {
            let region = region(kept)?;
            let [a, b] = arc(request)?;
            carry(region.intersect_great_circle_arc(&a, &b))?;
            answer.push(u64::from(region.is_intersecting_great_circle_arc(&a, &b)));
        }
        Call::GreatCircleAll => {
            let region = region(kept)?;
            let [x, y, z] = doubles(request);
            if !within(&[x, y, z], &VECTOR_BOUNDS) {
                return Err(Refusal::With(status::OUTSIDE_DOMAIN, 0));
            }
            let normal = UnitVect3::new_unsafe(x, y, z);
            all(&region.intersect_great_circle_all(&normal), answer)?;
        }
        Call::ParallelFirst => {
            let region = region(kept)?;
            let [lat, sine, cosine] = parallel(request)?;
            first(region.intersect_parallel(lat, sine, cosine), answer)?;
        }
        Call::ParallelAll => {
            let region = region(kept)?;
            let [lat, sine, cosine] = parallel(request)?;
            all(&region.intersect_parallel_all(lat, sine, cosine), answer)?;
        }
        Call::IsIntersectingParallel => {
            let region = region(kept)?;
            let [lat, sine, cosine] = parallel(request)?;
            carry(region.intersect_parallel(lat, sine, cosine))?;
            let yes = region.is_intersecting_parallel(lat, sine, cosine);
            answer.push(u64::from(yes));
        }
        Call::WriteFile => {
            let mut output = vec![region_file::UNTOUCHED; request[0] as usize];
            answer.push(region_file::write(region(kept)?, &mut output)?);
            answer.extend(words_of(&output));
        }
        Call::ReadFile | Call::ReadStraight => {
            let (file, _) = bytes_and_rest(request);
            kept.region = Ok(Region::read(region_file::read(&file)?));
        }
        Call::DoorContains => {
            let (file, point) = bytes_and_rest(request);
            answer.push(region_file::returned(region_file::contains(&file, point)));
        }
        Call::DoorHold => {
            let (mut file, point) = bytes_and_rest(request);
            answer.push(region_file::returned(region_file::hold(&mut file, point)));
            answer.extend(words_of(&file));
        }
        Call::Root => answer.push(answered(double(request[0]).sqrt())),
        // Upstream has none: the standard library's.
        Call::WholeRoot => {
            let n = request[0];
            let root = n.isqrt();
            answer.extend([root, n - root * root]);
        }
        Call::ZoneNew => kept.zone = Some(zone_new(request)?),
        Call::ZoneRest => {
            let none = Refusal::Alone(status::ZONE_BOUNDS);
            zone_rest(kept.zone.as_ref().ok_or(none)?, request, answer);
        }
        Call::BoundingCone => bounding_cone(request, answer)?,
        Call::RegionValue => {
            kept.region = region_value(request[0], request[1], &request[2..])
                .map(|polygon| Region::handed_in(polygon, 0));
        }
        Call::SeamCount => answer.push(edited(kept)?.seam_count),
        Call::SeamedValue => {
            kept.region = region_value(request[0], request[1], &request[3..])
                .map(|polygon| Region::handed_in(polygon, request[2]));
        }
        Call::CostliestOutline => {
            kept.region = Ok(Region::built(costliest_outline(request[0])?));
            answer.extend(outline::ABREAST.map(answered));
        }
    }
    Ok(())
}

#[inline]
fn double(word: u64) -> f64 {
    f64::from_bits(word)
}

/// The first N words.
fn doubles<const N: usize>(words: &[u64]) -> [f64; N] {
    std::array::from_fn(|i| double(words[i]))
}

fn coo([x, y, z, lon, lat]: [f64; POINT_WORDS]) -> Coo3D {
    Coo3D { x, y, z, lon, lat }
}

/// The point of the first words, unchecked.
fn given(words: &[u64]) -> Coo3D {
    coo(doubles(words))
}

/// The point of the first words, which a refusal names by this index.
fn point(words: &[u64], index: u64) -> Answer<Coo3D> {
    if within(&doubles(words), &POINT_BOUNDS) {
        Ok(given(words))
    } else {
        Err(Refusal::With(status::OUTSIDE_DOMAIN, index))
    }
}

fn count_fits(count: u64) -> Answer<()> {
    match count {
        0 => Err(Refusal::Alone(status::NONE_GIVEN)),
        1..=MOST_POINTS => Ok(()),
        _ => Err(Refusal::Alone(status::TOO_MANY)),
    }
}

/// All points that a request gives.
fn points(count: u64, words: &[u64]) -> Answer<Vec<Coo3D>> {
    count_fits(count)?;
    (0..)
        .zip(words.chunks_exact(POINT_WORDS))
        .map(|(index, words)| point(words, index))
        .collect()
}

fn arc(request: &[u64]) -> Answer<[Coo3D; 2]> {
    Ok([point(request, 0)?, point(&request[POINT_WORDS..], 1)?])
}

fn parallel(request: &[u64]) -> Answer<[f64; 3]> {
    let parallel = doubles(request);
    if within(&parallel, &PARALLEL_BOUNDS) {
        Ok(parallel)
    } else {
        Err(Refusal::Alone(status::NO_PARALLEL))
    }
}

fn region(kept: &Kept) -> Answer<&Polygon> {
    match &kept.region {
        Ok(region) => Ok(&region.polygon),
        Err(refusal) => Err(*refusal),
    }
}

fn edited(kept: &mut Kept) -> Answer<&mut Region> {
    kept.region.as_mut().map_err(|refusal| *refusal)
}

fn build(request: &[u64]) -> Answer<Polygon> {
    let (count, rule) = (request[0], request[1]);
    let (control, corners) = request[2..].split_at(POINT_WORDS);
    let corners = points(count, corners)?;
    let method = record::method(rule, control, count)?;
    Ok(Polygon::new_custom_vec3(corners.into(), &method))
}

fn costliest_outline(count: u64) -> Answer<Polygon> {
    count_fits(count)?;
    let corners = outline::corners().into_iter().take(count as usize);
    Ok(record::afresh(corners.map(coo).collect(), false))
}

fn region_value(count: u64, flag: u64, lists: &[u64]) -> Answer<Polygon> {
    let (corners, normals) = lists.split_at(MOST_POINTS as usize * POINT_WORDS);
    count_fits(count)?;
    Ok(Polygon {
        vertices: corners
            .chunks_exact(POINT_WORDS)
            .take(count as usize)
            .map(given)
            .collect(),
        cross_products: normals
            .chunks_exact(VECTOR_WORDS)
            .take(count as usize)
            .map(|words| {
                let [x, y, z] = doubles(words);
                Vect3::new(x, y, z)
            })
            .collect(),
        contains_south_pole: flag != 0,
    })
}

fn dump(region: &Polygon, answer: &mut Vec<u64>) {
    answer.push(region.vertices.len() as u64);
    answer.push(u64::from(region.contains_south_pole));
    for corner in &region.vertices {
        answer.extend(fields(corner));
    }
    for normal in &region.cross_products {
        answer.extend(components(normal));
    }
}

fn fields(point: &Coo3D) -> [u64; POINT_WORDS] {
    let [x, y, z] = components(point);
    [x, y, z, answered(point.lon()), answered(point.lat())]
}

fn components<V: Vec3>(vector: &V) -> [u64; VECTOR_WORDS] {
    [vector.x(), vector.y(), vector.z()].map(answered)
}

fn finite<V: Vec3>(vector: &V) -> Answer<&V> {
    if [vector.x(), vector.y(), vector.z()]
        .iter()
        .all(|component| component.is_finite())
    {
        Ok(vector)
    } else {
        Err(Refusal::Alone(status::NOT_FINITE))
    }
}

fn first(crossing: Option<UnitVect3>, answer: &mut Vec<u64>) -> Answer<()> {
    all(crossing.as_slice(), answer)
}

fn all(crossings: &[UnitVect3], answer: &mut Vec<u64>) -> Answer<()> {
    answer.push(crossings.len() as u64);
    for crossing in crossings {
        answer.extend(components(finite(crossing)?));
    }
    Ok(())
}

/// The refusal of the first-answer call, which an is-intersecting call carries.
fn carry(crossing: Option<UnitVect3>) -> Answer<()> {
    crossing
        .as_ref()
        .map_or(Ok(()), |crossing| finite(crossing).map(|_| ()))
}

fn zone_new(request: &[u64]) -> Answer<Zone> {
    let [lon_min, lat_min, lon_max, lat_max] = doubles(request);
    if !zone_bounds_hold(lon_min, lat_min, lon_max, lat_max) {
        return Err(Refusal::Alone(status::ZONE_BOUNDS));
    }
    Ok(Zone::new(lon_min, lat_min, lon_max, lat_max))
}

fn zone_rest(zone: &Zone, request: &[u64], answer: &mut Vec<u64>) {
    let [a, b, c] = doubles(request);
    answer.push(answered(zone.dlon()));
    for yes in [
        zone.crossed_vertically(a, b, c),
        zone.crossed_horizontally(a, b, c),
        zone.is_lon_range_compatible(a, b),
        zone.contains(a, b),
        zone.contains_exclusive(a, b),
    ] {
        answer.push(u64::from(yes));
    }
    for (lon, lat) in zone.vertices() {
        answer.extend([lon, lat].map(answered));
    }
}

fn bounding_cone(request: &[u64], answer: &mut Vec<u64>) -> Answer<()> {
    let cone = Cone::bounding_cone(&points(request[0], &request[1..])?);
    answer.extend(components(finite(cone.center())?));
    // The changed copy holds the largest squared chord as its radius.
    answer.push(answered(cone.radius()));
    Ok(())
}
