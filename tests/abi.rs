// Structs that the static libraries hand over by value, as C lays them out.

/// `Path` of crates/scene/src/sections.rt.
#[allow(dead_code)]
#[repr(C)]
#[derive(Clone, Copy)]
pub struct Path {
    pub some: bool,
    pub closed: bool,
    pub curve: bool,
    pub start: usize,
    pub at: usize,
    pub count: u16,
    pub next: usize,
}

/// `Registration` of crates/projection/src/lib.rt.
#[allow(dead_code)]
#[repr(C)]
#[derive(Clone, Copy)]
pub struct Registration {
    pub lon: f64,
    pub lat: f64,
    pub x: f64,
    pub y: f64,
    pub scale: f64,
    pub bearing: f64,
    pub method: u32,
    pub controls: u32,
}
