// Cases with a name that says what they test. Each group is a function that
// adds to the set.

mod bytes;
mod earth;
mod kinds;
mod names;
mod shapes;
mod sizes;
mod steps;
mod tiers;

use crate::case::Case;
use crate::write::*;
use std::collections::BTreeSet;

pub use names::names;
pub use sizes::{eater, heavy, large};

#[derive(Default)]
struct Set {
    cases: Vec<Case>,
}

impl Set {
    fn doc(&mut self, name: impl Into<String>, doc: &Doc) {
        self.cases.push(Case::doc(name, doc));
    }

    fn raw(&mut self, name: impl Into<String>, bytes: Vec<u8>) {
        self.cases.push(Case::place(name, bytes));
    }

    fn records(&mut self, name: impl Into<String>, records: Vec<Vec<u8>>) {
        self.raw(name, blocks(&records.concat()));
    }

    fn sized(&mut self, name: impl Into<String>, doc: &Doc, change: impl FnOnce(&mut Case)) {
        self.cases.push(Case::doc(name, doc).with(change));
    }

    fn checked(self) -> Vec<Case> {
        let names: BTreeSet<&str> = self.cases.iter().map(|c| c.name.as_str()).collect();
        assert_eq!(names.len(), self.cases.len(), "a name is used twice");
        self.cases
    }
}

pub fn all() -> Vec<Case> {
    let mut set = Set::default();
    bytes::sheet(&mut set);
    bytes::blocks_and_checks(&mut set);
    bytes::layout(&mut set);
    bytes::names(&mut set);
    bytes::floats(&mut set);
    earth::frames(&mut set);
    earth::positions_on_earth(&mut set);
    earth::controls(&mut set);
    earth::degenerate(&mut set);
    earth::scales(&mut set);
    earth::two_refusals(&mut set);
    earth::labels(&mut set);
    earth::registration_warnings(&mut set);
    earth::fits(&mut set);
    shapes::kinds(&mut set);
    shapes::rings(&mut set);
    shapes::short_shapes(&mut set);
    shapes::cubics(&mut set);
    shapes::fills(&mut set);
    shapes::segments(&mut set);
    shapes::wide(&mut set);
    sizes::sweeps(&mut set);
    sizes::wide_and_spent(&mut set);
    sizes::full_slices(&mut set);
    sizes::borders(&mut set);
    steps::bounds(&mut set);
    steps::segments(&mut set);
    steps::rings(&mut set);
    steps::every_kind(&mut set);
    tiers::numbers(&mut set);
    tiers::around(&mut set);
    tiers::written(&mut set);
    tiers::none_left(&mut set);
    tiers::refused(&mut set);
    kinds::every_entry(&mut set);
    kinds::blocks_under_any(&mut set);
    kinds::missing(&mut set);
    kinds::paths_and_fills(&mut set);
    kinds::scenes(&mut set);
    kinds::allowance(&mut set);
    kinds::room(&mut set);
    kinds::labels(&mut set);
    kinds::bad_records(&mut set);
    kinds::refused(&mut set);
    kinds::refused_first(&mut set);
    set.checked()
}

/// The next f64 above in magnitude.
fn above(v: f64) -> f64 {
    f64::from_bits(v.to_bits() + 1)
}

/// The next f64 below in magnitude.
fn below(v: f64) -> f64 {
    f64::from_bits(v.to_bits() - 1)
}

fn sharp(x: f64, y: f64, w: f64, h: f64) -> Item {
    Item::new(BOX).at(x, y).size(w, h)
}

fn dot(x: f64, y: f64) -> Item {
    Item::new(DOT).at(x, y)
}

fn line(points: &[Point]) -> Item {
    Item::new(LINE).points(points)
}

fn polyline(role: u8, closed: bool, points: &[Point]) -> Part {
    Part::Polyline(role, closed, points.to_vec())
}

fn path(item: Item, closed: bool, points: &[Point]) -> Item {
    item.part(polyline(0, closed, points))
}

fn curve(role: u8, closed: bool, start: Point, cubics: &[[Point; 3]]) -> Part {
    Part::Cubics(role, closed, start, cubics.to_vec())
}

const SQUARE: [Point; 4] = [[0.0, 0.0], [1.0, 0.0], [1.0, 1.0], [0.0, 1.0]];
const TRIANGLE: [Point; 3] = [[0.0, 0.0], [2.0, 0.5], [1.0, 2.0]];
const ARCH: [Point; 3] = [[0.0, 1.0], [2.0, 1.0], [2.0, 0.0]];
const WILD: [Point; 3] = [[9.0, 8.0], [-7.0, 8.0], [2.0, 0.0]];
