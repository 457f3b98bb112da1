// The layers below the answer, floats as the sixteen hexadecimal digits of
// their bits, so that each can be compared on its own.

use geopic_core::stream::Parsed;
use geopic_core::{Frame, Registration};
use std::fmt::Write as _;

pub fn bits(v: f64) -> String {
    format!("{:016x}", v.to_bits())
}

fn pair(p: [f64; 2]) -> String {
    format!("{} {}", bits(p[0]), bits(p[1]))
}

fn optional<T>(v: Option<T>, show: impl FnOnce(T) -> String) -> String {
    v.map_or_else(|| "-".to_string(), show)
}

/// G: anchor (longitude, latitude), origin, scale, bearing.
pub fn registration(r: &Registration, out: &mut String) {
    let anchor = pair([r.anchor.lon, r.anchor.lat]);
    let origin = pair(r.origin);
    let (scale, bearing) = (bits(r.scale_m_per_in), bits(r.bearing_deg));
    put(out, format!("G {anchor} {origin} {scale} {bearing}"));
}

/// S rescale; O options; N features; V variables; A places; I items, each with
/// its points (J) and paths (K); L what the registration's names resolve to.
pub fn scene(parsed: &Parsed, out: &mut String) {
    let (scene, options) = (&parsed.scene, &parsed.options);
    put(out, format!("S {}", bits(scene.rescale)));
    let frame = optional(options.frame, |f| {
        u8::from(f == Frame::Mercator).to_string()
    });
    let anchor = optional(options.anchor, |a| pair([a.lon, a.lat]));
    let scale = optional(options.scale, bits);
    let bearing = optional(options.bearing, bits);
    let view_scale = optional(options.view_scale, bits);
    let (flatten, step) = (bits(options.flatten), bits(parsed.step));
    put(
        out,
        format!("O {frame} {anchor} {scale} {bearing} {flatten} {view_scale} {step}"),
    );
    for (i, f) in options.features.iter().enumerate() {
        put(out, format!("N {i} {} {}", f.name, pair([f.lon, f.lat])));
    }
    for (i, (name, value)) in scene.vars.iter().enumerate() {
        put(out, format!("V {i} {name} {}", bits(*value)));
    }
    for (i, p) in scene.places.iter().enumerate() {
        let nested = u8::from(p.block.is_some());
        let span = optional(p.span.as_ref(), |s| format!("{} {}", s.line, s.col));
        put(
            out,
            format!("A {i} {} {} {nested} {span}", p.label, pair(p.at)),
        );
    }
    items(parsed, out);
    let pairs = scene
        .vars
        .keys()
        .filter_map(|k| k.strip_suffix("_lon"))
        .filter(|n| *n != "geo");
    for name in options
        .features
        .iter()
        .map(|f| f.name.as_str())
        .chain(pairs)
    {
        put(
            out,
            format!("L {name} {}", optional(scene.point_of_label(name), pair)),
        );
    }
}

fn items(parsed: &Parsed, out: &mut String) {
    for (i, item) in parsed.scene.items.iter().enumerate() {
        let marks = [
            item.hidden.is_some(),
            item.block.is_some(),
            item.closed.is_some(),
            item.fill.is_some(),
            item.class.is_some(),
        ];
        let flags: u32 = marks
            .iter()
            .enumerate()
            .map(|(k, m)| u32::from(*m) << k)
            .sum();
        let label = optional(item.label.clone(), |l| l);
        let span = optional(item.span.as_ref(), |s| format!("{} {}", s.line, s.col));
        let at = optional(item.at, pair);
        let sizes = [item.w, item.h, item.r, item.rad]
            .map(|v| optional(v, bits))
            .join(" ");
        put(
            out,
            format!("I {i} {} {flags} {label} {span} {at} {sizes}", item.kind),
        );
        for (role, points) in [(0, &item.points), (1, &item.fill_points)] {
            if let Some(points) = points {
                put(out, format!("J {role} {}", list(points.iter().copied())));
            }
        }
        for (role, paths) in [(0, &item.paths), (1, &item.fill_paths)] {
            for path in paths.iter().flatten() {
                let closed = u8::from(path.closed);
                let points = match path.start {
                    Some(start) => {
                        let ends = path.cubics.iter().flatten().flatten().copied();
                        format!("0 {}", list(std::iter::once(start).chain(ends)))
                    }
                    None => format!("1 {}", list(path.points.iter().flatten().copied())),
                };
                put(out, format!("K {role} {closed} {points}"));
            }
        }
    }
}

fn list(points: impl Iterator<Item = [f64; 2]>) -> String {
    let all: Vec<String> = points.map(pair).collect();
    format!("{} {}", all.len(), all.join(" "))
        .trim_end()
        .to_string()
}

fn put(out: &mut String, text: String) {
    writeln!(out, "{text}").expect("a string takes every line");
}
