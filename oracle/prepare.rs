//! prepare UPSTREAM DEST: copies upstream's sph_geom into DEST/sph_geom, with the changes below
//! and no others. UPSTREAM is the folder that holds src/sph_geom.
//!
//! A change whose text does not stand in the file as often as expected stops the build: the
//! reference would be another one than the scope describes.

use std::fs;
use std::path::{Path, PathBuf};
use std::process::ExitCode;

struct Change {
    file: &'static str,
    times: usize,
    from: &'static str,
    to: &'static str,
}

/// The files that are taken over.
const COPIED: [&str; 4] = ["mod.rs", "coo3d.rs", "zone.rs", "cone.rs"];

/// Modules that mod.rs names and that no call of ours reaches.
const EMPTY: [&str; 3] = ["elliptical_cone.rs", "frame.rs", "proj.rs"];

const CHANGES: [Change; 10] = [
    // Seen from outside the crate, as coo3d already is.
    Change {
        file: "mod.rs",
        times: 1,
        from: "pub(super) mod cone;",
        to: "pub mod cone;",
    },
    Change {
        file: "mod.rs",
        times: 1,
        from: "pub(super) mod zone;",
        to: "pub mod zone;",
    },
    // A region value is handed in as it is, and its fields are answered.
    Change {
        file: "mod.rs",
        times: 1,
        from: "pub struct Polygon {
  vertices: Box<[Coo3D]>,
  cross_products: Box<[Vect3]>,
  contains_south_pole: bool,
}",
        to: "pub struct Polygon {
  pub vertices: Box<[Coo3D]>,
  pub cross_products: Box<[Vect3]>,
  pub contains_south_pole: bool,
}",
    },
    // A pole rule is asked of a region that stands already.
    Change {
        file: "mod.rs",
        times: 1,
        from: "\ntrait ContainsSouthPoleComputer {",
        to: "\npub trait ContainsSouthPoleComputer {",
    },
    // The edges in range at a point are counted.
    Change {
        file: "mod.rs",
        times: 1,
        from: "\nfn is_in_lon_range<",
        to: "\npub fn is_in_lon_range<",
    },
    // Sine and cosine come as arguments.
    Change {
        file: "mod.rs",
        times: 1,
        from: "intersect_parallel(&self, lat: f64) -> Option<UnitVect3> {
    let (lat_sin, lat_cos) = lat.sin_cos();",
        to: "intersect_parallel(&self, lat: f64, lat_sin: f64, lat_cos: f64) -> Option<UnitVect3> {",
    },
    Change {
        file: "mod.rs",
        times: 1,
        from: "intersect_parallel_all(&self, lat: f64) -> Vec<UnitVect3> {
    let (lat_sin, lat_cos) = lat.sin_cos();",
        to: "intersect_parallel_all(&self, lat: f64, lat_sin: f64, lat_cos: f64) -> Vec<UnitVect3> {",
    },
    Change {
        file: "mod.rs",
        times: 1,
        from: "is_intersecting_parallel(&self, lat: f64) -> bool {
    self.intersect_parallel(lat).is_some()",
        to: "is_intersecting_parallel(&self, lat: f64, lat_sin: f64, lat_cos: f64) -> bool {
    self.intersect_parallel(lat, lat_sin, lat_cos).is_some()",
    },
    // A point's five fields are set directly.
    Change {
        file: "coo3d.rs",
        times: 1,
        from: "pub struct Coo3D {
  x: f64,
  y: f64,
  z: f64,
  lon: f64,
  lat: f64,
}",
        to: "pub struct Coo3D {
  pub x: f64,
  pub y: f64,
  pub z: f64,
  pub lon: f64,
  pub lat: f64,
}",
    },
    // The largest squared chord is taken before the arc sine.
    Change {
        file: "cone.rs",
        times: 1,
        from: "Cone::new(center, 2.0 * (0.5 * d2_max.sqrt()).asin())",
        to: "Cone::new(center, d2_max)",
    },
];

fn main() -> ExitCode {
    let arguments: Vec<String> = std::env::args().skip(1).collect();
    let [upstream, dest] = arguments.as_slice() else {
        eprintln!("usage: prepare UPSTREAM DEST");
        return ExitCode::from(2);
    };
    match prepare(
        &Path::new(upstream).join("src/sph_geom"),
        &Path::new(dest).join("sph_geom"),
    ) {
        Ok(()) => ExitCode::SUCCESS,
        Err(message) => {
            eprintln!("prepare: {message}");
            ExitCode::FAILURE
        }
    }
}

fn prepare(from: &Path, to: &Path) -> Result<(), String> {
    fs::create_dir_all(to).map_err(|e| format!("{}: {e}", to.display()))?;
    for file in COPIED {
        let path = from.join(file);
        let text = fs::read_to_string(&path).map_err(|e| format!("{}: {e}", path.display()))?;
        write(to.join(file), &changed(file, text)?)?;
    }
    for file in EMPTY {
        write(to.join(file), "")?;
    }
    Ok(())
}

fn changed(file: &str, mut text: String) -> Result<String, String> {
    for change in CHANGES.iter().filter(|change| change.file == file) {
        let found = text.matches(change.from).count();
        if found != change.times {
            return Err(format!(
                "{file}: found {found} times, not {}: {:?}",
                change.times, change.from
            ));
        }
        text = text.replace(change.from, change.to);
    }
    Ok(text)
}

fn write(path: PathBuf, text: &str) -> Result<(), String> {
    fs::write(&path, text).map_err(|e| format!("{}: {e}", path.display()))
}
