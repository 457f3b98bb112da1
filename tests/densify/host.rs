// The static library's producers of points, as Rust.

#[path = "../abi.rs"]
mod abi;

pub use abi::Path;
use abi::Registration;

#[repr(C)]
pub struct Drawing {
    pub ok: bool,
    pub at: usize,
    pub left: usize,
    pub hit: bool,
}

#[repr(C)]
pub struct Grant {
    pub granted: usize,
    pub left: usize,
    pub hit: bool,
}

unsafe extern "C" {
    fn densify_path(
        s: *const u8,
        n: usize,
        p: Path,
        tol: f64,
        left: usize,
        work: *mut f64,
        len: usize,
    ) -> Drawing;
    fn densify_ellipse(
        step: f64,
        scale: f64,
        tol: f64,
        x: f64,
        y: f64,
        rx: f64,
        ry: f64,
        left: usize,
        work: *mut f64,
        len: usize,
    ) -> Drawing;
    fn densify_box(
        step: f64,
        scale: f64,
        tol: f64,
        x: f64,
        y: f64,
        w: f64,
        h: f64,
        rad: f64,
        left: usize,
        work: *mut f64,
        len: usize,
    ) -> Drawing;
    fn densify_line(
        reg: Registration,
        step: f64,
        work: *const f64,
        n: usize,
        left: usize,
        out: *mut f64,
        len: usize,
    ) -> Drawing;
    fn densify_segment_want(step: f64, scale: f64, ax: f64, ay: f64, bx: f64, by: f64) -> usize;
    fn densify_arc_vertices(step: f64, scale: f64, radius: f64, tol: f64) -> usize;
    fn densify_draw(left: usize, hit: bool, want: usize, floor: usize) -> Grant;
}

// SAFETY, for all of these: slices are alive during the call, and what is
// written is lent to nobody else.

pub fn path(s: &[u8], p: Path, tol: f64, left: usize, work: &mut [f64]) -> Drawing {
    unsafe {
        densify_path(
            s.as_ptr(),
            s.len(),
            p,
            tol,
            left,
            work.as_mut_ptr(),
            work.len(),
        )
    }
}

pub fn ellipse(numbers: [f64; 7], left: usize, work: &mut [f64]) -> Drawing {
    let [step, scale, tol, x, y, rx, ry] = numbers;
    let (to, room) = (work.as_mut_ptr(), work.len());
    unsafe { densify_ellipse(step, scale, tol, x, y, rx, ry, left, to, room) }
}

pub fn box_ring(numbers: [f64; 8], left: usize, work: &mut [f64]) -> Drawing {
    let [step, scale, tol, x, y, w, h, rad] = numbers;
    let (to, room) = (work.as_mut_ptr(), work.len());
    unsafe { densify_box(step, scale, tol, x, y, w, h, rad, left, to, room) }
}

pub fn line(numbers: [f64; 7], points: &[f64], left: usize, out: &mut [f64]) -> Drawing {
    let [step, lon, lat, x, y, scale, bearing] = numbers;
    let reg = Registration {
        lon,
        lat,
        x,
        y,
        scale,
        bearing,
        method: 0,
        controls: 0,
    };
    let (from, n) = (points.as_ptr(), points.len());
    unsafe { densify_line(reg, step, from, n, left, out.as_mut_ptr(), out.len()) }
}

pub fn segment_want(step: f64, scale: f64, a: [f64; 2], b: [f64; 2]) -> usize {
    unsafe { densify_segment_want(step, scale, a[0], a[1], b[0], b[1]) }
}

pub fn arc_vertices(step: f64, scale: f64, radius: f64, tol: f64) -> usize {
    unsafe { densify_arc_vertices(step, scale, radius, tol) }
}

pub fn draw(left: usize, hit: bool, want: usize, floor: usize) -> Grant {
    unsafe { densify_draw(left, hit, want, floor) }
}
