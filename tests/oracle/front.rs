// The host's call as document 01 has it: refusals in its order, the source run
// on the scene, and what each slice would hold.

use crate::record::{self, Event, Record};
use crate::register::Method;
use crate::stream::{self, Parsed};
use crate::{GeoError, KINDS, Registration, georeference_scene};

pub use crate::record::{Feature, Producer};
pub use crate::scene::Item;

// For the producers of points, each by itself.
pub use crate::convert::round9;
pub use crate::densify::{Budget, box_ring, densify_polyline, ellipse_ring, path_points};
pub use crate::record::{begin, finish};
pub use crate::scene::Path;

/// Room in the four slices, in whole points, positions, feature lines and
/// warnings; the kind table; the tier, and where to start from in place of its
/// allowance.
pub struct Sizes {
    pub work: usize,
    pub positions: usize,
    pub features: usize,
    pub warnings: usize,
    pub kinds: Vec<u8>,
    pub tier: u32,
    pub allowance: Option<usize>,
}

pub struct Answer {
    pub registration: Registration,
    pub record: Record,
    /// The number that refuses for space, 0 where all fits.
    pub short_of: u32,
}

impl Answer {
    pub fn method(&self) -> u32 {
        match self.registration.method {
            Method::Anchor => 0,
            Method::TwoPoints => 1,
            Method::Helmert => 2,
        }
    }

    pub fn features(&self) -> impl Iterator<Item = &Feature> {
        self.record.events.iter().filter_map(|e| match e {
            Event::Feature(f) => Some(f),
            _ => None,
        })
    }

    pub fn warnings(&self) -> impl Iterator<Item = (u32, u32)> {
        self.record.events.iter().filter_map(|e| match e {
            Event::Warning { kind, index } => Some((*kind, *index)),
            _ => None,
        })
    }

    pub fn draws(&self) -> &[record::Draw] {
        &self.record.draws
    }
}

/// The built-in kind table: texts and dots on the screen, blocks not drawn, the
/// rest geographic.
pub const BUILT_IN: [u8; 11] = [0, 0, 0, 0, 0, 0, 0, 1, 1, 0, 2];

/// Whether refusal 20 lets a kind table through.
fn fits(kinds: &[u8]) -> bool {
    kinds.len() == KINDS.len() && kinds.iter().all(|entry| *entry <= 2) && kinds[10] == 2
}

/// Refusal 20, before all that the stream decides: 1 to 6 and 19.
pub fn parse(bytes: &[u8], kinds: &[u8]) -> Result<Parsed, u32> {
    if !fits(kinds) {
        return Err(20);
    }
    stream::parse(bytes)
}

/// The tier's allowance: 0 is the entry tier, any other number the larger.
fn allowance_of(tier: u32) -> usize {
    if tier == 0 { 20_000 } else { 2_000_000 }
}

/// Refusals 7 to 14 as errors; 15 to 18 stand in the answer.
pub fn answer(parsed: &Parsed, sizes: &Sizes) -> Result<Answer, u32> {
    let variables = parsed.scene.vars.keys().cloned().collect();
    let allowance = sizes.allowance.unwrap_or(allowance_of(sizes.tier));
    record::begin(allowance, parsed.step, &sizes.kinds, variables);
    let result = georeference_scene(&parsed.scene, &parsed.options);
    let record = record::finish();
    let scene = result.map_err(|e| number(&e))?;
    let answer = Answer {
        registration: scene.registration,
        short_of: short_of(&record.events, sizes),
        record,
    };
    // A feature that is not written was emitted all the same, and its warning
    // is ours.
    let unwritten = answer.record.unwritten;
    assert_eq!(
        answer.features().count() + unwritten,
        scene.features.features.len()
    );
    assert_eq!(answer.warnings().count(), scene.warnings.len() + unwritten);
    Ok(answer)
}

fn number(error: &GeoError) -> u32 {
    match error.kind.as_str() {
        "refused_7" => 7,
        // The source's own check is wider in latitude and comes earlier.
        "refused_8" | "invalid_anchor" => 8,
        "refused_9" => 9,
        "no_registration" => 10,
        "degenerate_control_points" => 11,
        "invalid_scale" if error.message.starts_with("geo_scale") => 12,
        "view_scale_required" => 13,
        "invalid_scale" if error.message.starts_with("effective scale") => 14,
        other => panic!("no number for error {other}: {}", error.message),
    }
}

/// Refusals 15 to 18: the first thing that lacks room decides.
fn short_of(events: &[Event], sizes: &Sizes) -> u32 {
    let (mut positions, mut features, mut warnings) = (0, 0, 0);
    for event in events {
        match event {
            Event::Work(points) => {
                if *points > sizes.work {
                    return 15;
                }
            }
            Event::Feature(feature) => {
                positions += feature.positions.len();
                if positions > sizes.positions {
                    return 16;
                }
                features += 1;
                if features > sizes.features {
                    return 17;
                }
            }
            Event::Warning { .. } => {
                warnings += 1;
                if warnings > sizes.warnings {
                    return 18;
                }
            }
        }
    }
    0
}
