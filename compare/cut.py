#!/usr/bin/env python3
"""Cuts the functions that document 01 names out of uiua's Rust source.

    compare/cut.py            writes compare/target/uiua.rs

The source is looked for under UIUA_SRC (default: ../shared/docs/src, seen from the
repository's root), the folder that holds types/shape.rs and its neighbours. Where it is missing,
one sentence says which path was tried and what to fetch, and the status is 2. No text of it is
kept in this repository. What is taken stands in CUTS, what is changed stands in EDITS, each
with its reason. An item or an edit that is not found exactly as often as listed (once, unless
it says otherwise) ends the script with an error and writes nothing.
"""

import hashlib
import os
import pathlib
import re
import sys

ROOT = pathlib.Path(__file__).resolve().parent.parent
SOURCE = pathlib.Path(os.path.normpath(ROOT / (os.environ.get("UIUA_SRC") or "../shared/docs/src")))
TARGET = ROOT / "compare" / "target" / "uiua.rs"

COMMIT = "a03b1015bc"
# The files at that commit. Another digest only warns: the anchors below decide.
DIGESTS = {
    "shape.rs": "5695131f7da688b609fb8db88c54e5ecfb59d1d4aae296f3a13f044890e8e9f2",
    "scalar.rs": "7d7244b19c4a81d19ce86b4073973a4f0498ad5296c0d83d4dfd7e305d108e42",
    "ty.rs": "c09f3e6cb0a168e73c5d72793ac26a31e065d83d91c1b272b9f19cd6de13686c",
    "val.rs": "23bc5078dcf3eab4dc7c9b07c6249ebe5e9775a3ba2e9828705c502425b65136",
    "mod.rs": "6a688c76f8c6738d98ec214d10c8e309974ad72b4c49d95c060f9063cbacaee5",
}

# File by file the items taken: the words their first line starts with and, where only some
# methods of an impl are taken, the methods' names. An item reaches to its closing brace.
CUTS = {
    "shape.rs": [
        ("pub struct DynShape {", None),
        ("impl From<Dim> for DynShape {", None),
        ("impl<const N: usize> From<[Dim; N]> for DynShape {", None),
        ("impl From<Vec<Dim>> for DynShape {", None),
        ("impl<const N: usize> From<[usize; N]> for DynShape {", None),
        ("impl From<usize> for DynShape {", None),
        ("impl DynShape {", None),
        ("impl Default for DynShape {", None),
        ("impl FromIterator<Dim> for DynShape {", None),
        ("pub enum Dim {", None),
        ("impl From<f64> for Dim {", None),
        ("impl Dim {", None),
        ("impl Ord for Dim {", None),
        ("impl PartialOrd for Dim {", None),
        ("impl BitOr for DynShape {", None),
        ("impl BitOr for Dim {", None),
    ],
    "scalar.rs": [
        ("pub enum ScalarBox {", None),
        ("impl ScalarBox {", ["into_inner"]),
        ("pub enum Scalar {", None),
        ("impl Scalar {", [
            "is_any", "scalar_type", "shaped", "superset_of", "compatible_with",
            "compatible_with_boxes", "union", "unrefine",
        ]),
        ("impl From<&[f64]> for Scalar {", None),
    ],
    "ty.rs": [
        ("pub struct Type {", None),
        ("impl Type {", [
            "is_any", "unboxed", "into_row", "into_nth_row", "into_first_row", "into_last_row",
            "as_boxes", "as_mut_fields",
        ]),
        ("impl BitOr for Type {", None),
    ],
    "val.rs": [
        ("pub enum TypeVal {", None),
        ("impl TypeVal {", [
            "ty", "spec", "row_count", "scalar", "rank", "into_row", "into_first_row",
            "into_last_row", "as_dim", "as_dims",
        ]),
    ],
    "mod.rs": [
        ("pub fn validate(", None),
        ("fn check_scalar(", None),
        ("fn check_shape(", None),
        ("pub enum TypeError {", None),
        ("pub type TypeResult", None),
        ("fn num_as_dim(", None),
        ("pub(crate) fn pervade_dyn_shapes(", None),
    ],
}

# A match arm for a whole array (Val): one line, or up to the brace under its first letter.
VAL_ARM = r"^( +)TypeVal::Val\((?:.*,\n|(?:.*[^,\n]\n)(?:\1 .*\n|\1\{\n)*\1\}\n)"

# File by file: pattern, what takes its place, how often it must match, why.
EDITS = {
    "shape.rs": [
        (r", Serialize, Deserialize\)", ")", 2, "serde is not to be had"),
        (r"^ *#\[serde\(.*\)\]\n", "", 2, "serde is not to be had"),
        (r"derive\((?=[^\n]*\npub struct DynShape)", "derive(Debug, ", 1,
         "its own Debug, left out, prints by Display"),
    ],
    "scalar.rs": [
        (r", Serialize, Deserialize\)", ")", 2, "serde is not to be had"),
        (r"derive\((?=[^\n]*\npub enum Scalar \{)", "derive(Debug, ", 1,
         "its own Debug, left out, prints by Display"),
    ],
    "ty.rs": [
        (r", Serialize, Deserialize\)", ")", 1, "serde is not to be had"),
        (r"; len_hint\]", "; capped(len_hint)]", 2,
         "more copies than any type holds need not be made to be refused (standins.rs)"),
    ],
    "val.rs": [
        (r", PartialOrd, Serialize, Deserialize\)", ")", 1,
         "serde is not to be had; values are not compared"),
        (r"^ +Val\(Value\),\n", "", 1, "Val stays out (document 01)"),
        (VAL_ARM, "", 12, "Val stays out (document 01)"),
        (r" \| TypeVal::Val\(_\)", "", 1, "Val stays out (document 01)"),
    ],
    "mod.rs": [
        (r"^fn check_", "pub fn check_", 2, "called from outside"),
        (r"^pub\(crate\) fn", "pub fn", 1, "called from outside"),
        (r"^( +)ch\.scalar = spec;\n", r"\g<0>\1changed()?;\n", 1,
         "refusal 5: a wholly Any type has taken the spec's scalar (standins.rs)"),
        (r"^( +)ch\.as_mut_fields\(.*\);\n", r"\g<0>\1changed()?;\n", 1,
         "refusal 5: a box may have become a Def of copies (standins.rs)"),
        (r"=> (\*ch = spec),$", r"=> { \1; changed()?; }", 1,
         "refusal 5: a box Any has taken the spec's box (standins.rs)"),
    ],
}

HEADER = """\
// Cut from uiua by compare/cut.py; not to be kept in the repository.
#![allow(dead_code, unexpected_cfgs)]
use std::cmp::{self, Ordering};
use std::mem::{discriminant, swap};
use std::ops::BitOr;
use std::slice;

use crate::standins::*;
"""


def fail(why):
    print(f"cut.py: {why}", file=sys.stderr)
    sys.exit(2)


def lines_of(name):
    path = SOURCE / "types" / name
    try:
        data = path.read_bytes()
    except OSError:
        fail(f"the Rust's source is not there: {path} cannot be read; fetch uiua-lang/uiua at commit {COMMIT} and let UIUA_SRC name its folder src")
    if hashlib.sha256(data).hexdigest() != DIGESTS[name]:
        print(f"cut.py: warning: {path} is not the file of commit {COMMIT}", file=sys.stderr)
    return data.decode(errors="replace").split("\n")


def block(lines, start, what, indent=""):
    """The lines of the item that begins with `start` at this indent, with its attributes."""
    found = [i for i, line in enumerate(lines) if line.startswith(indent + start)]
    if len(found) != 1:
        fail(f"{what}: `{start}` found {len(found)} times, wanted once")
    first = last = found[0]
    if not lines[first].endswith(";"):
        while lines[last] != indent + "}":
            last += 1
            if last == len(lines):
                fail(f"{what}: `{start}` has no end")
    while first > 0 and lines[first - 1].startswith(indent + "#["):
        first -= 1
    return lines[first:last + 1]


def item(lines, start, methods, what):
    whole = block(lines, start, what)
    if methods is None:
        return whole
    kept = [whole[0]]
    for name in methods:
        kept += block(whole, f"pub fn {name}(", f"{what}, {start}", indent="    ")
    return kept + ["}"]


def edited(text, name):
    for pattern, instead, times, _reason in EDITS[name]:
        text, found = re.subn(pattern, instead, text, flags=re.MULTILINE)
        if found != times:
            fail(f"{name}: {pattern!r} found {found} times, wanted {times}")
    return text


def cut(name):
    lines = lines_of(name)
    items = ["\n".join(item(lines, start, methods, name)) for start, methods in CUTS[name]]
    return edited("\n\n".join(items) + "\n", name)


def main():
    text = "\n".join([HEADER] + [cut(name) for name in CUTS])
    TARGET.parent.mkdir(exist_ok=True)
    if not TARGET.exists() or TARGET.read_text() != text:
        TARGET.write_text(text)


if __name__ == "__main__":
    main()
