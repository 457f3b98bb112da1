"""The counted edits that make the oracle of the source, and the two builds that
the benchmark runs: one with the stand-ins alone, one with the library's leaves.

Each edit is (how often the text occurs, the text, what takes its place). A
count that differs, a file whose sum differs, or a library function of floats
that is left over stops the build.
"""

import hashlib
import re

SUMS = {
    "lib.rs": "be32109b9d180219d64fa80b6a1c4013e0aae924b85a9ef283085ce212f00bbd",
    "geodesy.rs": "20a8f45e164e8f13f94cb979f53d06ff23d8576bafe8ef1c77d8f4d50969edbc",
    "densify.rs": "c340abbda5710e73207e4c48d75ff2ac78def5bffd87154f75446e7bd1f1a16e",
    "scene.rs": "b5602731b8382e5fc46334080cf4d6886c8749188feb3e2a8aefc6c1f419fd7f",
    "register.rs": "ceea990c763054e2b980e8415a6038558e26fd9068be91512b0387ea9e43279f",
    "convert.rs": "038c08f36ab5328251d130ed0ae78463dbeb3300276021e988e91d498af7e8e4",
    "geojson.rs": "3d69a7a5e33f2bef158a0250c68d42b5505fafefa4cdb9020780d6e4a36bca01",
}

# The library's leaf gives way to the stand-in's.
LEAF = "use crate::leaf::Leaf as _;\n"


def leaf(count, name, stand_in=None):
    return (count, f".{name}(", f".leaf_{stand_in or name}(")


def leaves_after(line):
    return (1, line, line + LEAF)


LEAVES = {
    "lib.rs": [leaves_after("use std::fmt;\n"), leaf(2, "is_finite")],
    "geodesy.rs": [
        leaves_after("use crate::GeoError;\n"),
        leaf(2, "abs"),
        leaf(2, "is_finite"),
        (1, ".rem_euclid(360.0)", ".leaf_rem_euclid_360()"),
        leaf(1, "hypot"),
        leaf(1, "sin"),
        leaf(1, "cos"),
        leaf(1, "tan"),
        leaf(1, "ln"),
        leaf(1, "exp"),
        leaf(1, "atan"),
        leaf(1, "atan2"),
        leaf(3, "to_radians"),
        leaf(3, "to_degrees"),
    ],
    "densify.rs": [
        leaves_after("use crate::register::Registration;\n"),
        leaf(2, "abs"),
        (1, "d(c1).max(d(c2))", "d(c1).leaf_max(d(c2))"),
        (1, "tol.max(1e-9)", "tol.leaf_max(1e-9)"),
        (1, "by_tol.max(by_step)", "by_tol.leaf_max(by_step)"),
        (1, "rx.max(ry)", "rx.leaf_max(ry)"),
        (1, "rad.max(0.0).min(hw).min(hh)", "rad.leaf_max(0.0).leaf_min(hw).leaf_min(hh)"),
        leaf(3, "is_finite"),
        leaf(3, "ceil"),
        leaf(3, "hypot"),
        leaf(2, "sin"),
        leaf(2, "cos"),
        leaf(1, "acos"),
        leaf(1, "to_radians"),
    ],
    "register.rs": [
        leaves_after("use crate::scene::Scene;\n"),
        leaf(6, "is_finite"),
        leaf(1, "max"),
        leaf(1, "sqrt", "root"),
        leaf(1, "hypot"),
        leaf(4, "sin"),
        leaf(4, "cos"),
        leaf(1, "atan2"),
        leaf(2, "to_radians"),
        leaf(1, "to_degrees"),
    ],
    "convert.rs": [leaves_after("use crate::register::Registration;\n"), leaf(1, "round")],
    "scene.rs": [],
    "geojson.rs": [],
}

# What the oracle is told of: draws, shapes, features and warnings.
REPORTS = {
    "lib.rs": [
        # Every warning is numbered as it is made.
        (
            1,
            "    /// A warning with no item attached.\n"
            "    pub fn new(kind: &str, message: impl Into<String>) -> Self {\n",
            "    pub fn new(kind: &str, message: impl Into<String>) -> Self {\n"
            "        record::warning(kind);\n",
        ),
        (
            1,
            "        self.id = Some(item.id.clone());\n",
            "        record::on_item(&item.id);\n        self.id = Some(item.id.clone());\n",
        ),
    ],
    "geodesy.rs": [
        (
            1,
            "-> Result<LonLat, GeoError> {\n",
            "-> Result<LonLat, GeoError> {\n        crate::record::checked(lon, lat);\n",
        ),
    ],
    "densify.rs": [
        (
            1,
            "use crate::register::Registration;\n",
            "use crate::record::{self, Producer};\nuse crate::register::Registration;\n",
        ),
        # The allowance to start from is the tier's, or another that the tests name.
        (1, "left: MAX_VERTICES,", "left: record::allowance(),"),
        # The sheet's step takes the constant's place.
        (1, "len_m / MAX_STEP_M", "len_m / record::step()"),
        (1, "reg.metres(r) / MAX_STEP_M", "reg.metres(r) / record::step()"),
        # Every draw, and who makes it.
        (
            1,
            "        self.left = self.left.saturating_sub(n);\n",
            "        self.left = self.left.saturating_sub(n);\n"
            "        record::draw(wanted, floor, n, self.left);\n",
        ),
        (
            1,
            "                budget.hit = true;\n",
            "                budget.hit = true;\n                record::unsplit();\n",
        ),
        (
            1,
            "            budget.take(1, 1);\n",
            "            record::producer(Producer::Piece);\n            budget.take(1, 1);\n",
        ),
        (
            1,
            "        let n = budget.take(wanted, 1);\n",
            "        record::producer(Producer::Segment);\n        let n = budget.take(wanted, 1);\n",
        ),
        (
            1,
            "    let n = budget.take(arc_vertices(",
            "    record::producer(Producer::Ellipse);\n    let n = budget.take(arc_vertices(",
        ),
        (
            1,
            "        budget.take(4, 4);\n",
            "        record::producer(Producer::SharpBox);\n        budget.take(4, 4);\n",
        ),
        (
            1,
            "        let per_quarter = budget.take(wanted * 4, 8) / 4;\n",
            "        record::producer(Producer::RoundedBox);\n"
            "        let per_quarter = budget.take(wanted * 4, 8) / 4;\n",
        ),
        # A ring's points, for the work that it needs.
        (
            2,
            "    close_ring(&mut pts);\n    pts\n}",
            "    close_ring(&mut pts);\n    record::ring(pts.len());\n    pts\n}",
        ),
    ],
    "register.rs": [
        (
            1,
            "use crate::scene::Scene;\n",
            "use crate::record;\nuse crate::scene::Scene;\n",
        ),
        # Refusals 7, 8 and 9 stand before what the source refuses later.
        (
            1,
            "    // declared scale and bearing",
            "    record::frame(frame)?;\n    // declared scale and bearing",
        ),
        (
            1,
            "    let reg = match controls.len() {\n",
            "    record::resolved(controls.len())?;\n    let reg = match controls.len() {\n",
        ),
        # Which feature or variable a warning is about.
        (
            1,
            "    for NamedFeature { name, lon, lat, .. } in &opts.features {\n",
            "    for NamedFeature { name, lon, lat, .. } in &opts.features {\n"
            "        record::host_feature();\n",
        ),
        (
            1,
            '        if name == "geo" {\n',
            '        record::lon_variable(name);\n        if name == "geo" {\n',
        ),
        (1, "    // declared anchor\n", "    record::anchor();\n"),
    ],
    "convert.rs": [
        (
            1,
            "use crate::register::Registration;\n",
            "use crate::record;\nuse crate::register::Registration;\n",
        ),
        # The kind table takes the place of the rule from kind to placement.
        (
            1,
            'item.kind == "block" || item.is_hidden()',
            "record::entry(&item.kind) == 2 || item.is_hidden()",
        ),
        (1, 'item.kind == "text" || item.kind == "dot"', "record::entry(&item.kind) == 1"),
        # Positions of a line by itself need it.
        (1, "fn round9(", "pub fn round9("),
        (
            1,
            "        if pts.len() < 2 {\n",
            "        record::shape(pts, closed, fill_outline);\n        if pts.len() < 2 {\n",
        ),
        (
            1,
            "        self.out.push(Feature::new(geometry, props));\n",
            "        record::feature(&geometry, &props);\n"
            "        self.out.push(Feature::new(geometry, props));\n",
        ),
        (
            1,
            "    if ctx.budget.hit {\n",
            "    record::end(ctx.budget.left, ctx.budget.hit);\n    if ctx.budget.hit {\n",
        ),
    ],
    "scene.rs": [],
    "geojson.rs": [],
}

# What the library rounds in its own way, or may on another machine. The square
# of the residual's distance stays: it is 0.
LEFT_OVER = re.compile(
    r"\.(sin|cos|tan|asin|acos|atan|atan2|sinh|cosh|tanh|ln|log|log2|log10|exp|exp2|"
    r"sqrt|cbrt|hypot|powf|mul_add|to_radians|to_degrees|rem_euclid|div_euclid|"
    r"round|ceil|floor|trunc|fract|abs|is_finite)\("
)


class Changed(Exception):
    pass


def lib_edits(modules):
    """Maps are left out and tests stay where they are; other modules come in."""
    return [
        (1, "pub mod maplibre;\n", "".join(f"{m};\n" for m in modules)),
        (1, "#[cfg(test)]\nmod tests;\n", ""),
    ]


def replaced(name, text, count, old, new):
    found = text.count(old)
    if found != count:
        raise Changed(f"{name}: {found} times instead of {count}: {old!r}")
    return text.replace(old, new)


def edited(name, data, modules, leaves, reports):
    """The text of a source file with its edits made: which modules of the tests
    lib.rs names, whether leaves are stand-ins, whether the source reports."""
    if hashlib.sha256(data).hexdigest() != SUMS[name]:
        raise Changed(f"{name}: the source is not the one the edits were made for")
    text = data.decode("utf-8")
    chosen = lib_edits(modules) if name == "lib.rs" else []
    chosen = chosen + (LEAVES[name] if leaves else []) + (REPORTS[name] if reports else [])
    for count, old, new in chosen:
        text = replaced(name, text, count, old, new)
    left = LEFT_OVER.search(text)
    if leaves and left:
        raise Changed(f"{name}: {left.group()} still goes to the library")
    return text
