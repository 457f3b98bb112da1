// The stream's format, for writing: the one place of the tests that knows
// records, blocks and checks.

use std::collections::BTreeMap;

pub type Point = [f64; 2];

pub const BLOCK: usize = 512;
pub const PAYLOAD: usize = 508;

pub const HIDDEN: u8 = 1;
pub const NESTED: u8 = 2;
pub const CLOSED: u8 = 4;
pub const FILL: u8 = 8;
pub const SCREEN: u8 = 16;

pub const BOX: u8 = 0;
pub const CIRCLE: u8 = 1;
pub const ELLIPSE: u8 = 2;
pub const ARC: u8 = 3;
pub const LINE: u8 = 4;
pub const ARROW: u8 = 5;
pub const SPLINE: u8 = 6;
pub const TEXT: u8 = 7;
pub const DOT: u8 = 8;
pub const BRACE: u8 = 9;
pub const BLOCK_KIND: u8 = 10;

/// A scene as records will hold it.
#[derive(Clone)]
pub struct Doc {
    pub rescale: f64,
    pub frame: Option<u8>,
    pub anchor: Option<[f64; 2]>,
    pub scale: Option<f64>,
    pub bearing: Option<f64>,
    pub flatten: Option<f64>,
    pub view_scale: Option<f64>,
    pub step: Option<f64>,
    pub features: Vec<(String, f64, f64)>,
    pub vars: BTreeMap<String, f64>,
    pub places: Vec<Place>,
    pub items: Vec<Item>,
}

#[derive(Clone)]
pub struct Place {
    pub label: String,
    pub at: Point,
    pub nested: u8,
    pub line: u32,
    pub column: u32,
}

#[derive(Clone)]
pub struct Item {
    pub kind: u8,
    pub flags: u8,
    pub label: String,
    pub line: u32,
    pub column: u32,
    pub at: Option<Point>,
    pub w: Option<f64>,
    pub h: Option<f64>,
    pub r: Option<f64>,
    pub rad: Option<f64>,
    pub parts: Vec<Part>,
}

#[derive(Clone)]
pub enum Part {
    Points(u8, Vec<Point>),
    Cubics(u8, bool, Point, Vec<[Point; 3]>),
    Polyline(u8, bool, Vec<Point>),
}

impl Doc {
    pub fn new() -> Doc {
        Doc {
            rescale: 1.0,
            frame: None,
            anchor: None,
            scale: None,
            bearing: None,
            flatten: None,
            view_scale: None,
            step: None,
            features: Vec::new(),
            vars: BTreeMap::new(),
            places: Vec::new(),
            items: Vec::new(),
        }
    }

    /// Mercator at (0, 0) by variables, as on the reference sheet.
    pub fn anchored() -> Doc {
        Doc::new().var("geo_frame", 1.0).var("geo_lat", 0.0).var("geo_lon", 0.0)
    }

    /// Mercator and no place on the Earth yet.
    pub fn mercator() -> Doc {
        Doc::new().var("geo_frame", 1.0)
    }

    pub fn with(mut self, change: impl FnOnce(&mut Doc)) -> Doc {
        change(&mut self);
        self
    }

    pub fn var(mut self, name: &str, value: f64) -> Doc {
        self.vars.insert(name.to_string(), value);
        self
    }

    pub fn feature(mut self, name: &str, lon: f64, lat: f64) -> Doc {
        self.features.push((name.to_string(), lon, lat));
        self
    }

    pub fn place(self, label: &str, at: Point) -> Doc {
        self.place_at(label, at, 0, 0, 0)
    }

    pub fn place_at(mut self, label: &str, at: Point, nested: u8, line: u32, column: u32) -> Doc {
        self.places.push(Place { label: label.to_string(), at, nested, line, column });
        self
    }

    pub fn item(mut self, item: Item) -> Doc {
        self.items.push(item);
        self
    }

    /// A control point: a place and the host's feature of its name.
    pub fn control(self, name: &str, at: Point, lon: f64, lat: f64) -> Doc {
        self.place(name, at).feature(name, lon, lat)
    }

    /// The records without the closing 0.
    pub fn records(&self) -> Vec<Vec<u8>> {
        let mut out = vec![Bytes::new(1).float(self.rescale).0];
        if let Some(frame) = self.frame {
            out.push(Bytes::new(2).byte(1).byte(frame).0);
        }
        if let Some(anchor) = self.anchor {
            out.push(Bytes::new(2).byte(2).pair(anchor).0);
        }
        let floats = [self.scale, self.bearing, self.flatten, self.view_scale, self.step];
        for (option, value) in (3..).zip(floats) {
            if let Some(v) = value {
                out.push(Bytes::new(2).byte(option).float(v).0);
            }
        }
        for (name, lon, lat) in &self.features {
            out.push(Bytes::new(3).name(name).float(*lon).float(*lat).0);
        }
        for (name, value) in &self.vars {
            out.push(Bytes::new(4).name(name).float(*value).0);
        }
        for p in &self.places {
            let record = Bytes::new(5).name(&p.label).pair(p.at).byte(p.nested);
            out.push(record.number(p.line).number(p.column).0);
        }
        for item in &self.items {
            item.records(&mut out);
        }
        out
    }

    pub fn payload(&self) -> Vec<u8> {
        let mut out = self.records().concat();
        out.push(0);
        out
    }

    pub fn stream(&self) -> Vec<u8> {
        blocks(&self.payload())
    }
}

impl Item {
    pub fn new(kind: u8) -> Item {
        Item {
            kind,
            flags: 0,
            label: String::new(),
            line: 0,
            column: 0,
            at: None,
            w: None,
            h: None,
            r: None,
            rad: None,
            parts: Vec::new(),
        }
    }

    pub fn flags(mut self, flags: u8) -> Item {
        self.flags = flags;
        self
    }

    pub fn label(mut self, label: &str) -> Item {
        self.label = label.to_string();
        self
    }

    pub fn span(mut self, line: u32, column: u32) -> Item {
        (self.line, self.column) = (line, column);
        self
    }

    pub fn at(mut self, x: f64, y: f64) -> Item {
        self.at = Some([x, y]);
        self
    }

    pub fn size(mut self, w: f64, h: f64) -> Item {
        (self.w, self.h) = (Some(w), Some(h));
        self
    }

    pub fn r(mut self, r: f64) -> Item {
        self.r = Some(r);
        self
    }

    pub fn rad(mut self, rad: f64) -> Item {
        self.rad = Some(rad);
        self
    }

    pub fn part(mut self, part: Part) -> Item {
        self.parts.push(part);
        self
    }

    pub fn points(self, points: &[Point]) -> Item {
        self.part(Part::Points(0, points.to_vec()))
    }

    pub fn fill_points(self, points: &[Point]) -> Item {
        self.part(Part::Points(1, points.to_vec()))
    }

    fn records(&self, out: &mut Vec<Vec<u8>>) {
        let floats = [self.w, self.h, self.r, self.rad];
        let mut presence = u8::from(self.at.is_some());
        for (k, value) in floats.iter().enumerate() {
            presence |= u8::from(value.is_some()) << (k + 1);
        }
        let mut record = Bytes::new(6).byte(self.kind).byte(self.flags).name(&self.label);
        record = record.number(self.line).number(self.column).byte(presence);
        if let Some(at) = self.at {
            record = record.pair(at);
        }
        for value in floats.into_iter().flatten() {
            record = record.float(value);
        }
        out.push(record.0);
        out.extend(self.parts.iter().map(Part::record));
    }
}

impl Part {
    pub fn record(&self) -> Vec<u8> {
        match self {
            Part::Points(role, points) => Bytes::new(7).byte(*role).pairs(points).0,
            Part::Cubics(role, closed, start, cubics) => {
                let head = Bytes::new(8).byte(*role).byte(u8::from(*closed)).byte(0);
                let mut record = head.pair(*start).count(cubics.len());
                for p in cubics.iter().flatten() {
                    record = record.pair(*p);
                }
                record.0
            }
            Part::Polyline(role, closed, points) => {
                let head = Bytes::new(8).byte(*role).byte(u8::from(*closed)).byte(1);
                head.pairs(points).0
            }
        }
    }
}

/// A record's bytes, field by field.
pub struct Bytes(pub Vec<u8>);

impl Bytes {
    pub fn new(tag: u8) -> Bytes {
        Bytes(vec![tag])
    }

    fn add(mut self, bytes: &[u8]) -> Bytes {
        self.0.extend_from_slice(bytes);
        self
    }

    pub fn byte(self, b: u8) -> Bytes {
        self.add(&[b])
    }

    pub fn count(self, n: usize) -> Bytes {
        self.add(&u16::try_from(n).expect("a count is a u16").to_le_bytes())
    }

    pub fn number(self, n: u32) -> Bytes {
        self.add(&n.to_le_bytes())
    }

    pub fn float(self, v: f64) -> Bytes {
        self.add(&v.to_le_bytes())
    }

    pub fn pair(self, p: Point) -> Bytes {
        self.float(p[0]).float(p[1])
    }

    pub fn pairs(self, points: &[Point]) -> Bytes {
        points.iter().fold(self.count(points.len()), |b, p| b.pair(*p))
    }

    pub fn name(self, name: &str) -> Bytes {
        self.byte(name.len() as u8).add(name.as_bytes())
    }
}

/// Blocks with right checks, zeros to the end of the last.
pub fn blocks(payload: &[u8]) -> Vec<u8> {
    let mut out = Vec::new();
    for part in payload.chunks(PAYLOAD) {
        let start = out.len();
        out.extend_from_slice(part);
        out.resize(start + BLOCK, 0);
    }
    mend(&mut out);
    out
}

/// Makes every whole block's check right.
pub fn mend(stream: &mut [u8]) {
    for (index, block) in stream.chunks_exact_mut(BLOCK).enumerate() {
        let (words, check) = block.split_at_mut(PAYLOAD);
        let sum = words.chunks_exact(4).fold(index as u32, |sum, w| {
            sum.wrapping_add(u32::from_le_bytes([w[0], w[1], w[2], w[3]]))
        });
        check.copy_from_slice(&sum.to_le_bytes());
    }
}

pub fn payload_of(stream: &[u8]) -> Vec<u8> {
    stream.chunks(BLOCK).flat_map(|b| &b[..b.len().min(PAYLOAD)]).copied().collect()
}
