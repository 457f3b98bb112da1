// The stream's bytes to the source's scene and options, and the step: refusals
// 1 to 6 and 19, each decided over the whole stream before the next.

use crate::geodesy::{Frame, LonLat};
use crate::scene::{Canvas, Fill, Item, Margin, Path, Place, Scene, Span};
use crate::{GeoOptions, KINDS, NamedFeature};
use std::collections::BTreeMap;

const BLOCK: usize = 512;
const PAYLOAD: usize = 508;
const MAX_BLOCKS: usize = 65_536;
const MAX_CANVAS: f64 = 1_000_000.0;
/// Metres, where option 7 is absent.
const STEP: f64 = 100.0;

pub struct Parsed {
    pub scene: Scene,
    pub options: GeoOptions,
    pub step: f64,
}

pub fn parse(bytes: &[u8]) -> Result<Parsed, u32> {
    let blocks = bytes.len() / BLOCK;
    if blocks == 0 || bytes.len() % BLOCK != 0 || blocks > MAX_BLOCKS {
        return Err(1);
    }
    for (index, block) in bytes.chunks_exact(BLOCK).enumerate() {
        let (words, check) = block.split_at(PAYLOAD);
        let sum = words
            .chunks_exact(4)
            .fold(index as u32, |sum, w| sum.wrapping_add(word(w)));
        if sum != word(check) {
            return Err(2);
        }
    }
    let payload: Vec<u8> = bytes
        .chunks_exact(BLOCK)
        .flat_map(|block| &block[..PAYLOAD])
        .copied()
        .collect();
    let mut reader = Reader {
        payload: &payload,
        at: 0,
        unfit: false,
    };
    let parsed = reader.stream().ok_or(3u32)?;
    if reader.unfit {
        return Err(4);
    }
    if parsed.options.flatten <= 0.0 {
        return Err(5);
    }
    if parsed.step < 1.0 || parsed.step > 1000.0 {
        return Err(19);
    }
    if parsed.scene.rescale <= 0.0 {
        return Err(6);
    }
    Ok(parsed)
}

fn word(bytes: &[u8]) -> u32 {
    u32::from_le_bytes([bytes[0], bytes[1], bytes[2], bytes[3]])
}

/// Reads on from `at`; `None` where the layout is broken. `unfit` remembers a
/// float that breaks condition 4.
struct Reader<'a> {
    payload: &'a [u8],
    at: usize,
    unfit: bool,
}

/// Roles that an item's tag 7 records have used.
#[derive(Default)]
struct Roles {
    used: [bool; 2],
}

impl Reader<'_> {
    fn bytes(&mut self, count: usize) -> Option<&[u8]> {
        let end = self.at.checked_add(count)?;
        let part = self.payload.get(self.at..end)?;
        self.at = end;
        Some(part)
    }

    fn byte(&mut self) -> Option<u8> {
        self.bytes(1).map(|b| b[0])
    }

    /// A byte that is at most `most`.
    fn choice(&mut self, most: u8) -> Option<u8> {
        self.byte().filter(|b| *b <= most)
    }

    fn count(&mut self) -> Option<usize> {
        let b = self.bytes(2)?;
        Some(usize::from(u16::from_le_bytes([b[0], b[1]])))
    }

    fn number(&mut self) -> Option<u32> {
        self.bytes(4).map(word)
    }

    fn float(&mut self) -> Option<f64> {
        let b = self.bytes(8)?;
        let v = f64::from_le_bytes([b[0], b[1], b[2], b[3], b[4], b[5], b[6], b[7]]);
        self.unfit |= !v.is_finite();
        Some(v)
    }

    /// A canvas coordinate or measure.
    fn canvas(&mut self) -> Option<f64> {
        let v = self.float()?;
        self.unfit |= v.abs() > MAX_CANVAS;
        Some(v)
    }

    fn pair(&mut self) -> Option<[f64; 2]> {
        Some([self.canvas()?, self.canvas()?])
    }

    fn pairs(&mut self) -> Option<Vec<[f64; 2]>> {
        let count = self.count()?;
        (0..count).map(|_| self.pair()).collect()
    }

    fn text(&mut self, least: u8) -> Option<String> {
        let length = self.byte().filter(|l| (least..=31).contains(l))?;
        let bytes = self.bytes(usize::from(length))?;
        if bytes.iter().any(|b| !(33..=126).contains(b)) {
            return None;
        }
        Some(bytes.iter().map(|b| char::from(*b)).collect())
    }

    fn name(&mut self) -> Option<String> {
        self.text(1)
    }

    fn span(&mut self) -> Option<Option<Span>> {
        let (line, col) = (self.number()?, self.number()?);
        let span = Span {
            line,
            col,
            end_col: col,
            file: None,
        };
        Some((line != 0 || col != 0).then_some(span))
    }

    fn stream(&mut self) -> Option<Parsed> {
        if self.byte()? != 1 {
            return None;
        }
        let mut parsed = Parsed {
            scene: empty_scene(self.float()?),
            options: GeoOptions::default(),
            step: STEP,
        };
        let mut last_tag = 1;
        let mut last_option = 0;
        let mut roles = Roles::default();
        loop {
            let tag = self.byte()?;
            let in_order = match tag {
                0 => break,
                7 | 8 => last_tag >= 6,
                6 => true,
                _ => tag >= last_tag,
            };
            if !in_order {
                return None;
            }
            match tag {
                2 => last_option = self.option(last_option, &mut parsed)?,
                3 => parsed.options.features.push(self.feature()?),
                4 => self.variable(&mut parsed.scene.vars)?,
                5 => parsed.scene.places.push(self.place()?),
                6 => {
                    let index = parsed.scene.items.len();
                    parsed.scene.items.push(self.item(index)?);
                    roles = Roles::default();
                }
                7 => self.points(parsed.scene.items.last_mut()?, &mut roles)?,
                8 => self.path(parsed.scene.items.last_mut()?)?,
                _ => return None,
            }
            last_tag = tag;
        }
        self.payload[self.at..]
            .iter()
            .all(|b| *b == 0)
            .then_some(parsed)
    }

    fn option(&mut self, last: u8, parsed: &mut Parsed) -> Option<u8> {
        let option = self.byte().filter(|o| *o > last)?;
        let options = &mut parsed.options;
        match option {
            1 => {
                options.frame = Some(match self.choice(1)? {
                    0 => Frame::Enu,
                    _ => Frame::Mercator,
                })
            }
            2 => {
                options.anchor = Some(LonLat {
                    lon: self.float()?,
                    lat: self.float()?,
                })
            }
            3 => options.scale = Some(self.float()?),
            4 => options.bearing = Some(self.float()?),
            5 => options.flatten = self.float()?,
            6 => options.view_scale = Some(self.float()?),
            7 => parsed.step = self.float()?,
            _ => return None,
        }
        Some(option)
    }

    fn feature(&mut self) -> Option<NamedFeature> {
        Some(NamedFeature {
            name: self.name()?,
            lon: self.float()?,
            lat: self.float()?,
            bbox: None,
        })
    }

    fn variable(&mut self, vars: &mut BTreeMap<String, f64>) -> Option<()> {
        let name = self.name()?;
        let value = self.float()?;
        if vars.last_key_value().is_some_and(|(last, _)| *last >= name) {
            return None;
        }
        vars.insert(name, value);
        Some(())
    }

    fn place(&mut self) -> Option<Place> {
        Some(Place {
            label: self.name()?,
            at: self.pair()?,
            block: (self.choice(1)? == 1).then(Vec::new),
            span: self.span()?,
        })
    }

    fn item(&mut self, index: usize) -> Option<Item> {
        let kind = KINDS.get(usize::from(self.byte()?))?;
        let flags = self.choice(31)?;
        let label = self.text(0)?;
        let span = self.span()?;
        let presence = self.choice(31)?;
        Some(Item {
            id: index.to_string(),
            kind: (*kind).to_string(),
            label: (!label.is_empty()).then_some(label),
            span,
            hidden: (flags & 1 != 0).then_some(true),
            block: (flags & 2 != 0).then(Vec::new),
            closed: (flags & 4 != 0).then_some(true),
            fill: (flags & 8 != 0).then(|| Fill {
                color: Some(String::new()),
                ..Fill::default()
            }),
            class: (flags & 16 != 0).then(|| "screen".to_string()),
            at: self.present(presence & 1, Self::pair)?,
            w: self.present(presence & 2, Self::canvas)?,
            h: self.present(presence & 4, Self::canvas)?,
            r: self.present(presence & 8, Self::canvas)?,
            rad: self.present(presence & 16, Self::canvas)?,
            ..Item::default()
        })
    }

    fn present<T>(
        &mut self,
        mark: u8,
        read: impl FnOnce(&mut Self) -> Option<T>,
    ) -> Option<Option<T>> {
        if mark == 0 {
            return Some(None);
        }
        read(self).map(Some)
    }

    fn points(&mut self, item: &mut Item, roles: &mut Roles) -> Option<()> {
        let role = usize::from(self.choice(1)?);
        if std::mem::replace(&mut roles.used[role], true) {
            return None;
        }
        let pairs = Some(self.pairs()?);
        if role == 0 {
            item.points = pairs;
        } else {
            item.fill_points = pairs;
        }
        Some(())
    }

    fn path(&mut self, item: &mut Item) -> Option<()> {
        let role = self.choice(1)?;
        let closed = self.choice(1)? == 1;
        let path = if self.choice(1)? == 0 {
            let start = self.pair()?;
            let count = self.count()?;
            let cubics: Option<Vec<_>> = (0..count)
                .map(|_| Some([self.pair()?, self.pair()?, self.pair()?]))
                .collect();
            Path {
                closed,
                start: Some(start),
                cubics: Some(cubics?),
                points: None,
            }
        } else {
            Path {
                closed,
                points: Some(self.pairs()?),
                ..Path::default()
            }
        };
        let paths = if role == 0 {
            &mut item.paths
        } else {
            &mut item.fill_paths
        };
        paths.get_or_insert_default().push(path);
        Some(())
    }
}

fn empty_scene(rescale: f64) -> Scene {
    Scene {
        scene: 1,
        units: String::new(),
        y_up: true,
        canvas: Canvas {
            w: 0.0,
            h: 0.0,
            margin: Margin::default(),
            origin: [0.0, 0.0],
        },
        rescale,
        source: None,
        vars: BTreeMap::new(),
        places: Vec::new(),
        items: Vec::new(),
    }
}
