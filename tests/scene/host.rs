// The static library's questions to a scene, as Rust.

#[path = "../abi.rs"]
mod abi;

pub use abi::Path;

#[repr(C)]
pub struct Value {
    pub some: bool,
    pub value: f64,
}

#[repr(C)]
pub struct Spot {
    pub some: bool,
    pub x: f64,
    pub y: f64,
}

#[repr(C)]
pub struct FrameChoice {
    pub some: bool,
    pub frame: u8,
}

#[repr(C)]
pub struct Feature {
    pub some: bool,
    pub at: usize,
    pub len: usize,
    pub lon: f64,
    pub lat: f64,
    pub next: usize,
}

#[repr(C)]
pub struct Variable {
    pub some: bool,
    pub at: usize,
    pub len: usize,
    pub value: f64,
    pub next: usize,
}

#[repr(C)]
pub struct Place {
    pub some: bool,
    pub at: usize,
    pub len: usize,
    pub x: f64,
    pub y: f64,
    pub nested: bool,
    pub line: u32,
    pub col: u32,
    pub next: usize,
}

#[repr(C)]
pub struct Item {
    pub some: bool,
    pub kind: u8,
    pub hidden: bool,
    pub nested: bool,
    pub closed: bool,
    pub fill: bool,
    pub screen: bool,
    pub label: usize,
    pub len: usize,
    pub line: u32,
    pub col: u32,
    pub at: Spot,
    pub w: Value,
    pub h: Value,
    pub r: Value,
    pub rad: Value,
    pub next: usize,
}

#[repr(C)]
pub struct Points {
    pub some: bool,
    pub at: usize,
    pub count: u16,
}

unsafe extern "C" {
    fn scene_refusal(s: *const u8, n: usize) -> u32;
    fn scene_rescale(s: *const u8, n: usize) -> f64;
    fn scene_flatten(s: *const u8, n: usize) -> f64;
    fn scene_step(s: *const u8, n: usize) -> f64;
    fn scene_frame(s: *const u8, n: usize) -> FrameChoice;
    fn scene_anchor(s: *const u8, n: usize) -> Spot;
    fn scene_scale(s: *const u8, n: usize) -> Value;
    fn scene_bearing(s: *const u8, n: usize) -> Value;
    fn scene_view_scale(s: *const u8, n: usize) -> Value;
    fn scene_feature(s: *const u8, n: usize, p: usize) -> Feature;
    fn scene_variable(s: *const u8, n: usize, p: usize) -> Variable;
    fn scene_place(s: *const u8, n: usize, p: usize) -> Place;
    fn scene_item(s: *const u8, n: usize, p: usize) -> Item;
    fn scene_points(s: *const u8, n: usize, p: usize, role: u8) -> Points;
    fn scene_path(s: *const u8, n: usize, p: usize, role: u8) -> Path;
    fn scene_point(s: *const u8, n: usize, at: usize, i: usize) -> Spot;
    fn scene_label(s: *const u8, n: usize, at: usize, len: usize) -> Spot;
}

pub struct Stream<'a>(&'a [u8]);

macro_rules! ask {
    ($self:ident, $f:ident $(, $a:expr)*) => {
        // SAFETY: the slice is alive during the call, which only reads it.
        unsafe { $f($self.0.as_ptr(), $self.0.len() $(, $a)*) }
    };
}

/// The answers to a question from position p on, until there is none.
macro_rules! walk {
    ($self:ident, $p:expr, $f:ident $(, $a:expr)*) => {{
        let mut next = $p;
        std::iter::from_fn(move || {
            let r = ask!($self, $f, next $(, $a)*);
            next = r.next;
            r.some.then_some(r)
        })
    }};
}

impl<'a> Stream<'a> {
    pub fn new(bytes: &'a [u8]) -> Self {
        Stream(bytes)
    }

    pub fn refusal(&self) -> u32 {
        ask!(self, scene_refusal)
    }

    pub fn rescale(&self) -> f64 {
        ask!(self, scene_rescale)
    }

    pub fn flatten(&self) -> f64 {
        ask!(self, scene_flatten)
    }

    pub fn step(&self) -> f64 {
        ask!(self, scene_step)
    }

    pub fn frame(&self) -> FrameChoice {
        ask!(self, scene_frame)
    }

    pub fn anchor(&self) -> Spot {
        ask!(self, scene_anchor)
    }

    pub fn scale(&self) -> Value {
        ask!(self, scene_scale)
    }

    pub fn bearing(&self) -> Value {
        ask!(self, scene_bearing)
    }

    pub fn view_scale(&self) -> Value {
        ask!(self, scene_view_scale)
    }

    pub fn features(&self) -> impl Iterator<Item = Feature> + '_ {
        walk!(self, 0, scene_feature)
    }

    pub fn variables(&self) -> impl Iterator<Item = Variable> + '_ {
        walk!(self, 0, scene_variable)
    }

    pub fn places(&self) -> impl Iterator<Item = Place> + '_ {
        walk!(self, 0, scene_place)
    }

    pub fn items(&self) -> impl Iterator<Item = Item> + '_ {
        walk!(self, 0, scene_item)
    }

    pub fn paths(&self, p: usize, role: u8) -> impl Iterator<Item = Path> + '_ {
        walk!(self, p, scene_path, role)
    }

    pub fn points(&self, p: usize, role: u8) -> Points {
        ask!(self, scene_points, p, role)
    }

    pub fn label(&self, at: usize, len: usize) -> Spot {
        ask!(self, scene_label, at, len)
    }

    pub fn list(&self, at: usize, count: usize) -> Vec<Spot> {
        (0..count).map(|i| ask!(self, scene_point, at, i)).collect()
    }

    /// The payload's bytes: 508 of each block's 512.
    pub fn text(&self, at: usize, len: usize) -> String {
        (at..at + len)
            .map(|p| char::from(self.0[p / 508 * 512 + p % 508]))
            .collect()
    }
}
