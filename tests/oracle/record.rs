// What the source reports while it runs: the edits call these functions. One
// run at a time; `begin` opens it and `finish` takes it out.

use crate::densify::close_ring;
use crate::geodesy::Frame;
use crate::geojson::Geometry;
use crate::{GeoError, KINDS};
use serde_json::{Map, Value};
use std::cell::RefCell;

/// Largest latitude of EPSG:3857's area of use.
const MAX_LATITUDE: f64 = 85.06;
const MAX_LONGITUDE: f64 = 180.0;
const MAX_CONTROLS: usize = 64;

#[derive(Clone, Copy, PartialEq)]
pub enum Producer {
    Segment,
    Piece,
    Ellipse,
    RoundedBox,
    SharpBox,
}

pub struct Draw {
    pub producer: Producer,
    pub want: usize,
    pub floor: usize,
    pub grant: usize,
    pub left: usize,
}

pub struct Feature {
    pub item: u32,
    pub geometry: u32,
    pub role: u32,
    pub placement: u32,
    pub part: u32,
    pub positions: Vec<[f64; 2]>,
}

/// What asks for space, in the source's order.
pub enum Event {
    Work(usize),
    Feature(Feature),
    Warning { kind: u32, index: u32 },
}

#[derive(Default)]
pub struct Record {
    pub events: Vec<Event>,
    pub draws: Vec<Draw>,
    /// The allowance to start from, then what `finish` finds left.
    pub left: usize,
    /// The longest step between two positions, in metres.
    step: f64,
    /// The kind table: an entry for each of KINDS.
    kinds: Vec<u8>,
    pub spent: bool,
    /// Pieces that were not flat and met fewer than 2 left.
    pub unsplit: usize,
    /// Features that the source emits below the minimum of positions.
    pub unwritten: usize,
    /// Fill outlines that a closed shape leaves unused.
    pub unused_outlines: usize,
    variables: Vec<String>,
    features_met: u32,
    /// Index for a warning of the registration.
    index: u32,
    checked: Vec<[f64; 2]>,
    producer: Option<Producer>,
    /// Whether the line or path being drawn is marked closed.
    closed: bool,
}

thread_local! {
    static RECORD: RefCell<Record> = RefCell::new(Record::default());
}

fn with<T>(f: impl FnOnce(&mut Record) -> T) -> T {
    RECORD.with(|r| f(&mut r.borrow_mut()))
}

pub fn begin(allowance: usize, step: f64, kinds: &[u8], variables: Vec<String>) {
    with(|r| {
        *r = Record {
            left: allowance,
            step,
            kinds: kinds.to_vec(),
            variables,
            ..Record::default()
        }
    });
}

pub fn finish() -> Record {
    with(std::mem::take)
}

pub fn allowance() -> usize {
    with(|r| r.left)
}

pub fn step() -> f64 {
    with(|r| r.step)
}

/// What the kind table says of a kind: 0 geographic, 1 screen, 2 not drawn.
pub fn entry(kind: &str) -> u8 {
    let index = KINDS.iter().position(|k| *k == kind);
    with(|r| r.kinds[index.expect("the stream has no other kinds")])
}

/// Refusal 7, where the source has just chosen the frame.
pub fn frame(frame: Frame) -> Result<(), GeoError> {
    match frame {
        Frame::Mercator => Ok(()),
        Frame::Enu => Err(GeoError::new("refused_7", "frame")),
    }
}

pub fn host_feature() {
    with(|r| {
        r.index = r.features_met;
        r.features_met += 1;
    });
}

pub fn lon_variable(name: &str) {
    with(|r| {
        let full = format!("{name}_lon");
        let index = r.variables.iter().position(|v| *v == full);
        r.index = index.expect("the variable is in the stream") as u32;
    });
}

pub fn anchor() {
    with(|r| r.index = 0);
}

/// Each control point that resolved, and the anchor, on its way to a check.
pub fn checked(lon: f64, lat: f64) {
    with(|r| r.checked.push([lon, lat]));
}

/// Refusals 8 and 9, once all control points and the anchor are known.
pub fn resolved(controls: usize) -> Result<(), GeoError> {
    let outside = |p: &[f64; 2]| p[1].abs() > MAX_LATITUDE || p[0].abs() > MAX_LONGITUDE;
    if with(|r| r.checked.iter().any(outside)) {
        return Err(GeoError::new("refused_8", "position"));
    }
    if controls > MAX_CONTROLS {
        return Err(GeoError::new("refused_9", "control points"));
    }
    Ok(())
}

pub fn warning(kind: &str) {
    let kind = match kind {
        "ignored" => 1,
        "control_point_unresolved" => 2,
        "control_point_overridden" => 3,
        "ignored_with_control_points" => 4,
        "densification_budget" => 6,
        // The frame is then enu, which is refused.
        "invalid_frame" => return,
        other => panic!("no number for warning {other}"),
    };
    with(|r| {
        let index = if kind == 2 || kind == 3 { r.index } else { 0 };
        r.events.push(Event::Warning { kind, index });
    });
}

/// The warning just made is on an item: of the kinds left, only missing
/// geometry is.
pub fn on_item(id: &str) {
    with(|r| match r.events.last_mut() {
        Some(Event::Warning { kind, index }) if *kind == 1 => {
            *kind = 5;
            *index = number(id);
        }
        _ => panic!("a warning on an item that has no number"),
    });
}

pub fn producer(producer: Producer) {
    with(|r| r.producer = Some(producer));
}

pub fn draw(want: usize, floor: usize, grant: usize, left: usize) {
    with(|r| {
        let producer = r.producer.take().expect("the producer is named");
        r.draws.push(Draw {
            producer,
            want,
            floor,
            grant,
            left,
        });
    });
}

pub fn unsplit() {
    with(|r| r.unsplit += 1);
}

/// A box, circle or ellipse: its closed points.
pub fn ring(points: usize) {
    with(|r| {
        r.closed = false;
        r.events.push(Event::Work(points + 1));
    });
}

/// A line or path, before its points are counted.
pub fn shape(points: &[[f64; 2]], closed: bool, outline: Option<&[[f64; 2]]>) {
    let ring = |p: &[[f64; 2]]| {
        let mut p = p.to_vec();
        close_ring(&mut p);
        p.len()
    };
    let own = if closed { ring(points) } else { points.len() };
    let fill = outline.map_or(0, ring);
    with(|r| {
        r.closed = closed;
        r.unused_outlines += usize::from(closed && own >= 4 && outline.is_some());
        r.events.push(Event::Work(own + fill + 1));
    });
}

pub fn feature(geometry: &Geometry, props: &Map<String, Value>) {
    let text = |key: &str| props.get(key).and_then(Value::as_str);
    let item = number(text("geopic:id").expect("every feature has its item"));
    let part = props.get("geopic:part").and_then(Value::as_f64);
    let (kind, positions) = match geometry {
        Geometry::Point(p) => (0, vec![*p]),
        Geometry::LineString(p) => (1, p.clone()),
        Geometry::Polygon(rings) => (2, rings[0].clone()),
    };
    with(|r| {
        // A line from points marked closed is a ring of fewer than four.
        let short = match kind {
            1 => r.closed || positions.len() < 2,
            2 => positions.len() < 4,
            _ => false,
        };
        if short {
            r.unwritten += 1;
            r.events.push(Event::Warning {
                kind: 5,
                index: item,
            });
            return;
        }
        r.events.push(Event::Feature(Feature {
            item,
            geometry: kind,
            role: u32::from(text("geopic:role") == Some("fill")),
            placement: u32::from(text("geopic:placement") == Some("screen")),
            part: part.map_or(0, |i| i as u32 + 1),
            positions,
        }));
    });
}

pub fn end(left: usize, spent: bool) {
    with(|r| {
        r.left = left;
        r.spent = spent;
    });
}

fn number(id: &str) -> u32 {
    id.parse().expect("an item's id is its index")
}
