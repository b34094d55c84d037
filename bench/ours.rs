//! The loops of crates/bench and the C door, as the two archives export them. A slice is a pointer, then a length.

type Doubles = *const f64;

macro_rules! exported {
    ($arguments:tt: $($name:ident)*) => {
        extern "C" { $(pub fn $name $arguments -> u64;)* }
    };
}

exported!((corners: Doubles, m: usize, normals: Doubles, n: usize, flag: u64, entries: Doubles, k: usize):
    bench_idle_region bench_contains bench_contains_counting bench_circle_all bench_parallel_first bench_parallel_all bench_put bench_insert bench_hold bench_hold_lent);
exported!((corners: Doubles, m: usize, normals: Doubles, n: usize, flag: u64, starts: Doubles, k: usize, ends: Doubles, l: usize):
    bench_arc_first bench_arc_all);
exported!((corners: Doubles, m: usize, normals: Doubles, n: usize, flag: u64, times: usize): bench_remove bench_turn);
exported!((corners: Doubles, m: usize, normals: Doubles, n: usize, flag: u64, rule: u64, entries: Doubles, k: usize): bench_rule);
exported!((corners: Doubles, m: usize, normals: Doubles, n: usize, flag: u64, entries: Doubles, k: usize, out: *mut u8, l: usize):
    bench_write);
exported!((a: Doubles, m: usize, b: Doubles, n: usize): bench_idle_corners bench_build bench_cone bench_zone_questions);
exported!((a: Doubles, m: usize): bench_root bench_root_chain bench_zone_new);
exported!((numbers: *const u64, m: usize): bench_whole_root bench_whole_root_chain);
exported!((files: *const u8, m: usize, len: usize, times: usize): bench_read bench_read_straight);
exported!((file: *const u8, m: usize, entries: Doubles, k: usize): bench_file_contains bench_file_contains_straight);
exported!((count: usize, corner: usize, number: u64): bench_costliest_outline);

extern "C" {
    fn jigwandor_contains(
        file: *const u8,
        len: usize,
        x: f64,
        y: f64,
        z: f64,
        lon: f64,
        lat: f64,
    ) -> u32;
    fn jigwandor_hold(file: *mut u8, len: usize, x: f64, y: f64, z: f64, lon: f64, lat: f64)
        -> u32;
}

/// A region by its fields.
pub struct Region {
    pub corners: Vec<f64>,
    pub normals: Vec<f64>,
    pub flag: u64,
}

type OnEntries = unsafe extern "C" fn(Doubles, usize, Doubles, usize, u64, Doubles, usize) -> u64;
type OnArcs = unsafe extern "C" fn(
    Doubles,
    usize,
    Doubles,
    usize,
    u64,
    Doubles,
    usize,
    Doubles,
    usize,
) -> u64;
type Repeated = unsafe extern "C" fn(Doubles, usize, Doubles, usize, u64, usize) -> u64;
type OnTwo = unsafe extern "C" fn(Doubles, usize, Doubles, usize) -> u64;
type OnOne = unsafe extern "C" fn(Doubles, usize) -> u64;
type OnFiles = unsafe extern "C" fn(*const u8, usize, usize, usize) -> u64;
type OnFile = unsafe extern "C" fn(*const u8, usize, Doubles, usize) -> u64;

/// A reader by its loops.
#[derive(Clone, Copy)]
pub struct Reader {
    pub name: &'static str,
    reads: OnFiles,
    contains: OnFile,
}

pub const STRAIGHT: Reader = Reader {
    name: "straight",
    reads: bench_read_straight,
    contains: bench_file_contains_straight,
};

pub const COPYING: Reader = Reader {
    name: "copying",
    reads: bench_read,
    contains: bench_file_contains,
};

impl Reader {
    pub fn read(self, files: &[u8], len: usize, times: usize) -> u64 {
        unsafe { (self.reads)(files.as_ptr(), files.len(), len, times) }
    }

    pub fn contains(self, file: &[u8], entries: &[f64]) -> u64 {
        let (f, e) = (file, entries);
        unsafe { (self.contains)(f.as_ptr(), f.len(), e.as_ptr(), e.len()) }
    }
}

impl Region {
    pub fn entries(&self, f: OnEntries, entries: &[f64]) -> u64 {
        let (c, n) = (&self.corners, &self.normals);
        unsafe {
            f(
                c.as_ptr(),
                c.len(),
                n.as_ptr(),
                n.len(),
                self.flag,
                entries.as_ptr(),
                entries.len(),
            )
        }
    }

    pub fn arcs(&self, f: OnArcs, starts: &[f64], ends: &[f64]) -> u64 {
        let (c, n) = (&self.corners, &self.normals);
        unsafe {
            f(
                c.as_ptr(),
                c.len(),
                n.as_ptr(),
                n.len(),
                self.flag,
                starts.as_ptr(),
                starts.len(),
                ends.as_ptr(),
                ends.len(),
            )
        }
    }

    pub fn repeated(&self, f: Repeated, times: usize) -> u64 {
        let (c, n) = (&self.corners, &self.normals);
        unsafe { f(c.as_ptr(), c.len(), n.as_ptr(), n.len(), self.flag, times) }
    }

    pub fn rule(&self, rule: u64, entries: &[f64]) -> u64 {
        let (c, n) = (&self.corners, &self.normals);
        unsafe {
            bench_rule(
                c.as_ptr(),
                c.len(),
                n.as_ptr(),
                n.len(),
                self.flag,
                rule,
                entries.as_ptr(),
                entries.len(),
            )
        }
    }

    pub fn write(&self, entries: &[f64], out: &mut [u8]) -> u64 {
        let (c, n) = (&self.corners, &self.normals);
        unsafe {
            bench_write(
                c.as_ptr(),
                c.len(),
                n.as_ptr(),
                n.len(),
                self.flag,
                entries.as_ptr(),
                entries.len(),
                out.as_mut_ptr(),
                out.len(),
            )
        }
    }
}

pub fn two(f: OnTwo, a: &[f64], b: &[f64]) -> u64 {
    unsafe { f(a.as_ptr(), a.len(), b.as_ptr(), b.len()) }
}

pub fn one(f: OnOne, a: &[f64]) -> u64 {
    unsafe { f(a.as_ptr(), a.len()) }
}

pub fn numbers(f: unsafe extern "C" fn(*const u64, usize) -> u64, numbers: &[u64]) -> u64 {
    unsafe { f(numbers.as_ptr(), numbers.len()) }
}

pub fn costliest_outline(count: usize, corner: usize, number: u64) -> u64 {
    unsafe { bench_costliest_outline(count, corner, number) }
}

pub fn door_contains(file: &[u8], p: &[f64]) -> u32 {
    unsafe { jigwandor_contains(file.as_ptr(), file.len(), p[0], p[1], p[2], p[3], p[4]) }
}

pub fn door_hold(file: &mut [u8], p: &[f64]) -> u32 {
    unsafe { jigwandor_hold(file.as_mut_ptr(), file.len(), p[0], p[1], p[2], p[3], p[4]) }
}
