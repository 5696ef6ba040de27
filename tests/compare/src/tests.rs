//! Document 01's edges, the worked sequence of the run program, every refusal of every call, every scan, and the
//! sentences of soundness one by one.
#![forbid(unsafe_code)]

use crate::base::{from_bytes, is_sound, to_bytes, APPLICATIONS, ENDS, LENGTH, PRESENCES, SDSS, TYPES};
use crate::calls::{apply as keep, Call, CALLS, TELLING};
use crate::cases::printed;
use crate::coverage::{Counts, Traits};
use crate::file::{self, entries, in_bytes, to_file, Fault, Form, COUNT, FILE, LONGEST, MOST, ROOM, WIDTHS};
use crate::files::{self, longest, Written};
use crate::joins;
use crate::modes::{self, Gone};
use crate::nameless::{self, take_name, Since};
use crate::random::{free_places, Mode, Random};
use crate::removals::{self, traits};
use crate::run::Run;
use crate::schema::{is_name, is_same, Application, End, Modes, Name, Presence, Schema, Sds, Side, Type};
use crate::spellings;
use crate::spoil::{spoiled, EXPECTED, WAYS};
use std::collections::BTreeSet;

// Calls, as short as they can be written.

fn new_sds(name: &str) -> Call {
    Call::NewSds { name: name.into() }
}

fn remove_sds(sds: usize) -> Call {
    Call::RemoveSds { sds }
}

fn new_object(sds: usize, name: &str, parents: &str) -> Call {
    Call::NewObject { sds, name: name.into(), parents: parents.into() }
}

fn new_attribute(sds: usize, name: &str, value_kind: usize) -> Call {
    Call::NewAttribute { sds, name: name.into(), value_kind }
}

fn new_designation(sds: usize, name: &str) -> Call {
    Call::NewDesignation { sds, name: name.into() }
}

fn new_pair(sds: usize, name: &str, reverse_name: &str, category: usize, reverse_category: usize) -> Call {
    Call::NewPair { sds, name: name.into(), reverse_name: reverse_name.into(), category, reverse_category }
}

fn import(target: usize, source: usize, name: &str, new_name: &str, new_reverse_name: &str) -> Call {
    let (name, new_name, new_reverse_name) = (name.into(), new_name.into(), new_reverse_name.into());
    Call::Import { target, source, name, new_name, new_reverse_name }
}

fn apply(sds: usize, attribute: &str, to: &str) -> Call {
    Call::Apply { sds, attribute: attribute.into(), to: to.into() }
}

fn unapply(sds: usize, attribute: &str, to: &str) -> Call {
    Call::Unapply { sds, attribute: attribute.into(), to: to.into() }
}

fn apply_link(sds: usize, link: &str, object: &str) -> Call {
    Call::ApplyLink { sds, link: link.into(), object: object.into() }
}

fn unapply_link(sds: usize, link: &str, object: &str) -> Call {
    Call::UnapplyLink { sds, link: link.into(), object: object.into() }
}

fn add_destination(sds: usize, link: &str, object: &str) -> Call {
    Call::AddDestination { sds, link: link.into(), object: object.into() }
}

fn remove_destination(sds: usize, link: &str, object: &str) -> Call {
    Call::RemoveDestination { sds, link: link.into(), object: object.into() }
}

fn remove_type(sds: usize, name: &str) -> Call {
    Call::RemoveType { sds, name: name.into() }
}

fn remove_number(sds: usize, ty: usize) -> Call {
    Call::RemoveNumber { sds, ty }
}

fn rename(sds: usize, name: &str, new_name: &str) -> Call {
    Call::Rename { sds, name: name.into(), new_name: new_name.into() }
}

fn rename_number(sds: usize, ty: usize, new_name: &str) -> Call {
    Call::RenameNumber { sds, ty, new_name: new_name.into() }
}

fn set_modes(sds: usize, name: &str, usage: usize, definition: usize) -> Call {
    Call::SetModes { sds, name: name.into(), usage, definition }
}

fn scan_object(schema: &[u8], ty: usize, code: usize) -> Call {
    Call::ScanObject { schema: schema.to_vec(), ty, code }
}

fn scan_link(schema: &[u8], ty: usize, code: usize) -> Call {
    Call::ScanLink { schema: schema.to_vec(), ty, code }
}

fn profile(schema: &[u8], ty: usize) -> Call {
    Call::Profile { schema: schema.to_vec(), ty }
}

fn find(schema: &[u8], name: &str) -> Call {
    Call::Find { schema: schema.to_vec(), name: name.into() }
}

fn depth(schema: &[u8], ty: usize) -> Call {
    Call::Depth { schema: schema.to_vec(), ty }
}

fn name(sds: usize, ty: usize) -> Call {
    Call::Name { sds, ty }
}

fn descendant_set(schema: &[u8], ty: usize) -> Call {
    Call::DescendantSet { schema: schema.to_vec(), ty }
}

fn modes(schema: &[u8], ty: usize) -> Call {
    Call::Modes { schema: schema.to_vec(), ty }
}

fn read_file(file: &[u8]) -> Call {
    Call::ReadFile { file: file.into() }
}

/// A base to call on.
struct Lent(Vec<u8>);

impl Lent {
    fn fresh() -> Lent {
        Lent(to_bytes(&Schema::fresh()))
    }

    /// The answer to a call with an output of some length, and the output, which was all 0xee.
    fn with_output(&mut self, call: &Call, length: usize) -> ([usize; 4], Vec<u8>) {
        let before = self.0.clone();
        let mut output = vec![0xee; length];
        let answer = keep(&mut self.0, &mut output, call);
        if answer[0] != 0 {
            let told = usize::from(TELLING.contains(&answer[0]));
            assert!(answer[1 + told..].iter().all(|&value| value == 0), "{call:?}");
            assert!(self.0 == before && output == vec![0xee; length], "{call:?}");
        }
        let is_sound_after = is_sound(&before) || answer[0] == 0 && call.takes_any_bytes();
        assert_eq!(is_sound(&self.0), is_sound_after, "{call:?}");
        (answer, output)
    }

    /// The answer to a call with an output of length 0.
    fn call(&mut self, call: &Call) -> [usize; 4] {
        self.with_output(call, 0).0
    }

    fn number(&mut self, call: &Call) -> usize {
        self.call(call)[0]
    }

    /// A call that must be done; gives the first value.
    fn done(&mut self, call: &Call) -> usize {
        let answer = self.call(call);
        assert_eq!(answer[0], 0, "{call:?}");
        answer[1]
    }

    /// The list that a scan or a profile puts down, and its values. The output is just long enough.
    fn list(&mut self, call: &Call) -> ([usize; 3], Vec<u16>) {
        let length = 2 * from_bytes(&self.0).map_or(0, |mut schema| call.on(&mut schema, usize::MAX).list.len());
        let ([no, values @ ..], output) = self.with_output(call, length);
        assert_eq!(no, 0, "{call:?}");
        if length > 0 {
            assert_eq!(self.with_output(call, length - 1).0, [15, 0, 0, 0], "{call:?}");
        }
        (values, output.chunks(2).map(|entry| u16::from_le_bytes([entry[0], entry[1]])).collect())
    }
}

/// Three SDSs beside SDS 0: "one" with types of every kind, "two" in which "unit" is an attribute type, "three" empty.
fn some_base() -> Lent {
    let mut lent = Lent::fresh();
    for call in [
        new_sds("one"),
        new_sds("two"),
        new_sds("three"),
        import(1, 0, "object", "", ""),
        new_object(1, "unit", "object"),
        new_object(1, "part", "unit"),
        new_attribute(1, "size", 1),
        new_designation(1, "sees"),
        new_pair(1, "has", "of", 0, 3),
        apply(1, "size", "unit"),
        apply_link(1, "has", "unit"),
        import(2, 0, "object", "thing", ""),
        import(2, 1, "size", "unit", ""),
    ] {
        lent.done(&call);
    }
    lent
}

const UNIT: usize = 1;
const PART: usize = 2;
const SIZE: usize = 3;
const HAS: usize = 5;

/// Calls on `some_base` with the number that each is refused with. Each has as many higher faults as can be.
fn refused_calls() -> Vec<(usize, Call)> {
    vec![
        (4, new_sds("0")),
        (4, new_sds("")),
        (11, new_sds("system")),
        (2, remove_sds(4)),
        (2, remove_sds(16)),
        (3, remove_sds(0)),
        (2, new_object(16, "0", "0")),
        (3, new_object(0, "0", "0")),
        (4, new_object(1, "0", "")),
        (4, new_object(1, "", "")),
        (4, new_object(1, "unit", "a b c d e f ")),
        (4, new_object(1, "unit", " a b c d e f")),
        (4, new_object(1, "unit", "a  b c d e f")),
        (4, new_object(1, "unit", " ")),
        (5, new_object(1, "unit", "")),
        (5, new_object(1, "unit", "nope nope size size part")),
        (6, new_object(1, "unit", "size size nope")),
        (7, new_object(1, "unit", "part part size")),
        (8, new_object(1, "unit", "part object part")),
        (11, new_object(1, "unit", "part")),
        (2, new_attribute(16, "0", 6)),
        (3, new_attribute(0, "0", 6)),
        (4, new_attribute(1, "0", 6)),
        (5, new_attribute(1, "unit", 6)),
        (11, new_attribute(1, "unit", 5)),
        (2, new_designation(16, "0")),
        (3, new_designation(0, "0")),
        (4, new_designation(1, "0")),
        (11, new_designation(1, "unit")),
        (2, new_pair(16, "0", "0", 4, 4)),
        (3, new_pair(0, "0", "0", 4, 4)),
        (4, new_pair(1, "unit", "0", 4, 4)),
        (4, new_pair(1, "0", "unit", 4, 4)),
        (5, new_pair(1, "unit", "unit", 4, 0)),
        (5, new_pair(1, "unit", "unit", 0, 4)),
        (5, new_pair(1, "unit", "unit", 3, 3)),
        (11, new_pair(1, "unit", "new", 3, 0)),
        (11, new_pair(1, "new", "unit", 0, 3)),
        (11, new_pair(1, "new", "new", 0, 3)),
        (2, import(0, 16, "0", "0", "0")),
        (2, import(16, 0, "0", "0", "0")),
        (3, import(0, 1, "0", "0", "0")),
        (4, import(2, 1, "", "", "")),
        (4, import(2, 1, "nope", "0", "")),
        (4, import(2, 1, "nope", "", "0")),
        (6, import(2, 1, "nope", "thing", "thing")),
        (7, import(2, 1, "size", "thing", "thing")),
        (7, import(2, 1, "sees", "", "new")),
        (9, import(2, 1, "size", "thing", "")),
        (9, import(1, 1, "has", "unit", "unit")),
        (11, import(2, 1, "part", "thing", "")),
        (11, import(2, 1, "unit", "", "")),
        (11, import(2, 1, "has", "unit", "")),
        (11, import(2, 1, "has", "", "unit")),
        (11, import(2, 1, "has", "new", "new")),
        (11, import(2, 1, "has", "of", "")),
        (11, import(2, 1, "of", "has", "")),
        (2, apply(16, "0", "0")),
        (3, apply(0, "0", "0")),
        (4, apply(1, "nope", "0")),
        (4, apply(1, "", "nope")),
        (6, apply(1, "unit", "nope")),
        (6, apply(1, "nope", "size")),
        (7, apply(1, "unit", "unit")),
        (7, apply(1, "has", "unit")),
        (7, apply(1, "size", "size")),
        (9, apply(1, "size", "unit")),
        (2, unapply(16, "0", "0")),
        (3, unapply(0, "0", "0")),
        (4, unapply(1, "nope", "0")),
        (6, unapply(1, "unit", "nope")),
        (7, unapply(1, "unit", "size")),
        (13, unapply(1, "size", "part")),
        (13, unapply(1, "size", "has")),
        (2, apply_link(16, "0", "0")),
        (3, apply_link(0, "0", "0")),
        (4, apply_link(1, "nope", "0")),
        (4, apply_link(1, "0", "nope")),
        (6, apply_link(1, "unit", "nope")),
        (6, apply_link(1, "nope", "size")),
        (7, apply_link(1, "unit", "unit")),
        (7, apply_link(1, "has", "of")),
        (9, apply_link(1, "has", "unit")),
        (2, unapply_link(16, "0", "0")),
        (3, unapply_link(0, "0", "0")),
        (4, unapply_link(1, "nope", "0")),
        (6, unapply_link(1, "unit", "nope")),
        (7, unapply_link(1, "unit", "unit")),
        (13, unapply_link(1, "has", "part")),
        (13, unapply_link(1, "of", "unit")),
        (2, add_destination(16, "0", "0")),
        (3, add_destination(0, "0", "0")),
        (4, add_destination(1, "nope", "0")),
        (6, add_destination(1, "unit", "nope")),
        (7, add_destination(1, "size", "unit")),
        (9, add_destination(1, "of", "unit")),
        (2, remove_destination(16, "0", "0")),
        (3, remove_destination(0, "0", "0")),
        (4, remove_destination(1, "nope", "0")),
        (6, remove_destination(1, "unit", "nope")),
        (7, remove_destination(1, "has", "size")),
        (13, remove_destination(1, "has", "unit")),
        (13, remove_destination(1, "sees", "part")),
        (2, remove_type(16, "0")),
        (3, remove_type(0, "0")),
        (4, remove_type(1, "0")),
        (6, remove_type(1, "nope")),
        (2, rename(16, "0", "0")),
        (3, rename(0, "0", "0")),
        (3, rename(0, "object", "object")),
        (4, rename(1, "nope", "0")),
        (4, rename(1, "", "unit")),
        (6, rename(1, "nope", "unit")),
        (11, rename(1, "part", "unit")),
        (2, remove_number(16, 128)),
        (2, remove_number(4, 0)),
        (3, remove_number(0, 128)),
        (3, remove_number(0, 0)),
        (6, remove_number(1, 128)),
        (6, remove_number(2, UNIT)),
        (6, remove_number(3, 0)),
        (2, rename_number(16, 128, "0")),
        (2, rename_number(4, 0, "new")),
        (3, rename_number(0, 128, "0")),
        (3, rename_number(0, 0, "object")),
        (4, rename_number(1, 128, "0")),
        (4, rename_number(1, UNIT, "")),
        (6, rename_number(1, 128, "unit")),
        (6, rename_number(2, UNIT, "thing")),
        (11, rename_number(1, PART, "unit")),
        (11, rename_number(2, SIZE, "Thing")),
        (2, set_modes(16, "0", 32, 32)),
        (2, set_modes(4, "unit", 0, 0)),
        (3, set_modes(0, "0", 32, 32)),
        (3, set_modes(0, "object", 31, 31)),
        (4, set_modes(1, "0", 32, 32)),
        (4, set_modes(1, "", 31, 31)),
        (19, set_modes(1, "nope", 32, 0)),
        (19, set_modes(1, "nope", 0, 32)),
        (19, set_modes(1, "unit", 32, 32)),
        (6, set_modes(1, "nope", 31, 31)),
        (6, set_modes(2, "part", 0, 0)),
        (2, scan_object(&[1, 1, 4], 128, 10)),
        (2, scan_object(&[16], 128, 10)),
        (5, scan_object(&[1, 1], 128, 10)),
        (6, scan_object(&[1, 1], 128, 0)),
        (6, scan_object(&[2, 2], HAS, 0)),
        (7, scan_object(&[1, 1], SIZE, 3)),
        (8, scan_object(&[1, 2, 1], UNIT, 3)),
        (8, scan_object(&[1; 17], UNIT, 3)),
        (15, scan_object(&[1], UNIT, 3)),
        (5, scan_object(&[], 128, 10)),
        (6, scan_object(&[], SIZE, 3)),
        (6, scan_object(&[], UNIT, 3)),
        (2, scan_link(&[1, 1, 4], 128, 5)),
        (5, scan_link(&[1, 1], 128, 5)),
        (6, scan_link(&[1, 1], 128, 0)),
        (6, scan_link(&[2, 2], UNIT, 0)),
        (7, scan_link(&[1, 1], UNIT, 0)),
        (8, scan_link(&[1, 1], HAS, 0)),
        (15, scan_link(&[1], HAS, 0)),
        (5, scan_link(&[], 128, 5)),
        (6, scan_link(&[], UNIT, 0)),
        (6, scan_link(&[], HAS, 0)),
        (2, profile(&[1, 1, 255], 128)),
        (6, profile(&[1, 1], 128)),
        (7, profile(&[1, 1], SIZE)),
        (8, profile(&[1, 1], UNIT)),
        (15, profile(&[1], UNIT)),
        (6, profile(&[], SIZE)),
        (6, profile(&[], UNIT)),
        (2, find(&[1, 1, 16], "0")),
        (4, find(&[1, 1], "0")),
        (4, find(&[1, 1], "")),
        (6, find(&[1, 1], "nope")),
        (8, find(&[1, 1], "unit")),
        (4, find(&[], "0")),
        (4, find(&[], "")),
        (6, find(&[], "unit")),
        (2, depth(&[1, 1, 16], 128)),
        (6, depth(&[1, 1], 128)),
        (7, depth(&[1, 1], SIZE)),
        (8, depth(&[1, 1], UNIT)),
        (6, depth(&[], SIZE)),
        (2, name(4, 128)),
        (2, name(16, 0)),
        (6, name(1, 128)),
        (6, name(2, UNIT)),
        (2, descendant_set(&[1, 1, 16], 128)),
        (6, descendant_set(&[1, 1], 128)),
        (7, descendant_set(&[1, 1], SIZE)),
        (8, descendant_set(&[1, 1], UNIT)),
        (6, descendant_set(&[], SIZE)),
        (2, modes(&[1, 1, 16], 128)),
        (2, modes(&[1, 4], UNIT)),
        (6, modes(&[1, 1], 128)),
        (6, modes(&[2, 2], HAS)),
        (6, modes(&[], UNIT)),
        (8, modes(&[1, 2, 1], SIZE)),
        (8, modes(&[1; 17], 0)),
        (15, Call::WriteFile),
        (20, read_file(&[])),
        (21, read_file(&[0; 12])),
    ]
}

/// Calls on `some_base` with the number that each is refused with and the type, or the length, that it tells.
fn telling_calls() -> Vec<(usize, usize, Call)> {
    vec![
        (12, 0, remove_sds(1)),
        (12, 0, remove_sds(2)),
        (16, UNIT, remove_type(1, "object")),
        (16, PART, remove_type(1, "unit")),
        (17, UNIT, remove_type(1, "size")),
        (18, UNIT, remove_type(1, "has")),
        (18, UNIT, remove_type(1, "of")),
        (16, UNIT, remove_number(1, 0)),
        (16, PART, remove_number(1, UNIT)),
        (17, UNIT, remove_number(1, SIZE)),
        (18, UNIT, remove_number(1, HAS)),
        (18, UNIT, remove_number(1, 6)),
        (20, 12, read_file(&[0; 13])),
    ]
}

/// Bases with a full table, and calls that each has no room for.
fn calls_without_room() -> Vec<(Lent, Vec<Call>)> {
    let new_types = [
        new_object(1, "new", "object"),
        new_attribute(1, "new", 0),
        new_designation(1, "new"),
        new_pair(1, "new", "newer", 0, 0),
    ];
    let import_new = import(2, 1, "only_here", "", "");
    vec![
        (full_sdss(), vec![new_sds("new")]),
        (full_types(0), new_types.to_vec()),
        (full_presences(0), [new_types.to_vec(), vec![import_new]].concat()),
        (full_applications(), vec![apply(1, "attribute", "last")]),
        (full_ends(0), vec![apply_link(1, "pair", "last"), add_destination(1, "pair", "last")]),
    ]
}

/// A base with SDSs 1 and 2, both holding "object".
fn two_sdss() -> Lent {
    let mut lent = Lent::fresh();
    for call in [new_sds("a"), new_sds("b"), import(1, 0, "object", "", ""), import(2, 0, "object", "", "")] {
        lent.done(&call);
    }
    lent
}

fn full_sdss() -> Lent {
    let mut lent = Lent::fresh();
    for number in 1..Schema::SDSS {
        assert_eq!(lent.done(&new_sds(&format!("s{number}"))), number);
    }
    lent
}

fn full_types(free: usize) -> Lent {
    let mut lent = two_sdss();
    for number in 1..Schema::TYPES - free {
        assert_eq!(lent.done(&new_attribute(1, &format!("t{number}"), 0)), number);
    }
    lent
}

/// SDS 1 alone holds "only_here"; the other types are in as many SDSs as it takes.
fn full_presences(free: usize) -> Lent {
    let mut lent = two_sdss();
    for number in 0..99 {
        lent.done(&new_attribute(1, &format!("t{number}"), 0));
    }
    lent.done(&new_attribute(1, "only_here", 0));
    let mut left = Schema::PRESENCES - from_bytes(&lent.0).unwrap().presence_count() - free;
    for target in 2..7 {
        lent.call(&new_sds(&format!("s{target}")));
        for number in 0..left.min(99) {
            lent.done(&import(target, 1, &format!("t{number}"), "", ""));
        }
        left -= left.min(99);
    }
    assert_eq!(left, 0);
    lent
}

/// "attribute" is not applied to "last".
fn full_applications() -> Lent {
    let mut lent = two_sdss();
    lent.done(&new_attribute(1, "attribute", 0));
    lent.done(&new_object(1, "last", "object"));
    for attribute in 0..16 {
        lent.done(&new_attribute(1, &format!("a{attribute}"), 0));
    }
    for object in 0..16 {
        lent.done(&new_object(1, &format!("o{object}"), "object"));
        for attribute in 0..16 {
            lent.done(&apply(1, &format!("a{attribute}"), &format!("o{object}")));
        }
    }
    lent
}

/// "last" is no end. With an odd number of free places the ends of a designation type are odd too.
fn full_ends(free: usize) -> Lent {
    let mut lent = two_sdss();
    lent.done(&new_object(1, "last", "object"));
    lent.done(&new_designation(1, "designation"));
    lent.done(&new_pair(1, "pair", "reverse", 0, 0));
    let objects: Vec<String> = (0..64).map(|object| format!("o{object}")).collect();
    for object in &objects {
        lent.done(&new_object(1, object, "object"));
        lent.done(&apply_link(1, "pair", object));
        lent.done(&add_destination(1, "pair", object));
    }
    for link in ["more", "most"] {
        lent.done(&new_designation(1, link));
        objects.iter().for_each(|object| _ = lent.done(&apply_link(1, link, object)));
    }
    objects.iter().for_each(|object| _ = lent.done(&add_destination(1, "more", object)));
    objects.iter().skip(free).for_each(|object| _ = lent.done(&add_destination(1, "most", object)));
    lent
}

#[test]
fn every_refusal_of_every_call() {
    let mut seen = BTreeSet::new();
    let untelling = refused_calls().into_iter().map(|(number, call)| (number, 0, call));
    for (number, told, call) in untelling.chain(telling_calls()) {
        assert_eq!(some_base().call(&call), [number, told, 0, 0], "{call:?}");
        seen.insert((call.index(), number));
        // A base that is not sound comes before all else, and a fresh one or a file takes any bytes of the right length.
        if call.takes_any_bytes() {
            assert_eq!(Lent(vec![0; LENGTH]).number(&call), number, "{call:?}");
        }
        let length = if call.takes_any_bytes() { LENGTH - 1 } else { LENGTH };
        assert_eq!(Lent(vec![0; length]).number(&call), 1, "{call:?}");
        seen.insert((call.index(), 1));
    }
    for length in [0, LENGTH - 1, LENGTH + 1] {
        assert_eq!(Lent(vec![0; length]).number(&Call::Fresh), 1);
        seen.insert((Call::Fresh.index(), 1));
    }
    for (mut lent, calls) in calls_without_room() {
        for call in calls {
            assert_eq!(lent.call(&call), [14, 0, 0, 0], "{call:?}");
            seen.insert((call.index(), 14));
        }
    }
    let known = |index: usize| CALLS[index].refusals.iter().map(move |&number| (index, number));
    assert_eq!(seen, (0..CALLS.len()).flat_map(known).collect());
}

#[test]
fn lower_numbers_come_before_no_room() {
    assert_eq!(full_sdss().number(&new_sds("s1")), 11);
    assert_eq!(full_types(0).number(&new_pair(1, "t1", "t1", 0, 0)), 11);
    assert_eq!(full_presences(0).number(&import(2, 1, "only_here", "t0", "")), 11);
    assert_eq!(full_applications().number(&apply(1, "a0", "o0")), 9);
    assert_eq!(full_ends(0).number(&apply_link(1, "pair", "o0")), 9);
}

#[test]
fn numbers_are_tested_at_full_width() {
    let mut lent = some_base();
    for over in [256, 1 << 32, 1 << 63] {
        for call in [
            remove_sds(3 + over),
            new_object(1 + over, "new", "object"),
            new_attribute(1 + over, "new", 0),
            new_designation(1 + over, "new"),
            new_pair(1 + over, "new", "newer", 0, 0),
            import(2 + over, 1, "has", "", ""),
            import(2, 1 + over, "has", "", ""),
            apply(1 + over, "size", "part"),
            unapply(1 + over, "size", "unit"),
            apply_link(1 + over, "has", "part"),
            unapply_link(1 + over, "has", "unit"),
            add_destination(1 + over, "has", "part"),
            remove_destination(1 + over, "of", "unit"),
            remove_type(1 + over, "part"),
            remove_number(1 + over, PART),
            rename(1 + over, "part", "part"),
            rename_number(1 + over, PART, "part"),
            name(1 + over, UNIT),
            set_modes(1 + over, "unit", 1, 1),
        ] {
            assert_eq!(lent.number(&call), 2, "{call:?}");
        }
        for call in [
            new_attribute(1, "new", over),
            new_pair(1, "new", "newer", over, 0),
            new_pair(1, "new", "newer", 0, over),
            scan_object(&[1], UNIT, over),
            scan_link(&[1], HAS, over),
        ] {
            assert_eq!(lent.number(&call), 5, "{call:?}");
        }
        for call in [
            scan_object(&[1], UNIT + over, 0),
            scan_link(&[1], HAS + over, 0),
            profile(&[1], UNIT + over),
            depth(&[1], UNIT + over),
            name(1, UNIT + over),
            remove_number(1, PART + over),
            rename_number(1, PART + over, "part"),
            descendant_set(&[1], UNIT + over),
            modes(&[1], UNIT + over),
        ] {
            assert_eq!(lent.number(&call), 6, "{call:?}");
        }
        for call in [set_modes(1, "unit", 1 + over, 1), set_modes(1, "unit", 1, 1 + over)] {
            assert_eq!(lent.number(&call), 19, "{call:?}");
        }
    }
}

// Both sides of each edge.

#[test]
fn fresh_base() {
    let mut lent = Lent(vec![7; LENGTH]);
    assert_eq!(lent.number(&depth(&[0], 0)), 1);
    assert_eq!(keep(&mut lent.0, &mut [], &Call::Fresh), [0; 4]);
    assert!(lent.0 == Lent::fresh().0);
    assert_eq!(lent.call(&depth(&[0], 0)), [0; 4]);
    assert_eq!(lent.number(&depth(&[], 0)), 6);
    assert_eq!(lent.call(&scan_object(&[0], 0, 1)), [0; 4]);
    assert_eq!(lent.call(&descendant_set(&[0], 0)), [0; 4]);
}

#[test]
fn length_and_first_byte_of_a_name() {
    let mut lent = Lent::fresh();
    assert_eq!(lent.number(&new_sds("abcdefghijklmnop")), 0);
    assert_eq!(lent.number(&new_sds("abcdefghijklmnopq")), 4);
    assert_eq!(lent.number(&new_sds("1a")), 4);
    assert_eq!(lent.number(&new_sds("_a")), 4);
    assert_eq!(lent.number(&new_sds("A_1")), 0);
}

#[test]
fn number_of_parents() {
    let mut lent = two_sdss();
    for object in ["p", "q", "r", "s"] {
        lent.done(&new_object(1, object, "object"));
    }
    assert_eq!(lent.number(&new_object(1, "none", "")), 5);
    assert_eq!(lent.number(&new_object(1, "five", "p q r s object")), 5);
    let four = lent.done(&new_object(1, "four", "s q p r"));
    assert_eq!(lent.list(&scan_object(&[1], four, 2)).1, [1, 2, 3, 4]);
    assert_eq!(TYPES.rows(&lent.0).nth(four), Some(&[1, 0, 0, 4, 1, 2, 3, 4][..]));
}

#[test]
fn number_of_sdss() {
    assert_eq!(full_sdss().number(&new_sds("one_more")), 14);
    assert_eq!(full_sdss().number(&remove_sds(16)), 2);
    assert_eq!(Lent::fresh().number(&new_sds("system")), 11);
    let mut lent = full_sdss();
    lent.done(&remove_sds(9));
    lent.done(&remove_sds(4));
    assert_eq!(lent.done(&new_sds("lowest_unused")), 4);
}

#[test]
fn one_free_type_number() {
    let mut lent = full_types(1);
    assert_eq!(lent.number(&new_pair(1, "new", "newer", 0, 0)), 14);
    assert_eq!(lent.done(&new_attribute(1, "new", 0)), 127);
    // The two lowest unused numbers, which are no neighbours; the forward type takes the lower.
    lent.done(&remove_type(1, "t90"));
    lent.done(&remove_type(1, "t7"));
    assert_eq!(lent.call(&new_pair(1, "pair", "reverse", 3, 2)), [0, 7, 90, 0]);
}

#[test]
fn one_free_presence() {
    let mut lent = full_presences(1);
    assert_eq!(lent.number(&new_pair(1, "new", "newer", 0, 0)), 14);
    assert_eq!(lent.number(&import(2, 1, "only_here", "", "")), 0);
    assert_eq!(lent.number(&new_attribute(1, "new", 0)), 14);
    lent.done(&remove_type(2, "only_here"));
    assert_eq!(lent.number(&new_attribute(1, "new", 0)), 0);
    // An imported pair takes two.
    let mut lent = full_presences(3);
    lent.done(&new_pair(1, "pair", "reverse", 0, 0));
    assert_eq!(lent.number(&import(2, 1, "pair", "", "")), 14);
    lent.done(&remove_type(2, "t0"));
    assert_eq!(lent.number(&import(2, 1, "pair", "", "")), 0);
}

#[test]
fn one_free_end() {
    let mut lent = full_ends(1);
    assert_eq!(lent.number(&apply_link(1, "pair", "last")), 14);
    assert_eq!(lent.number(&add_destination(1, "pair", "last")), 14);
    assert_eq!(lent.number(&apply_link(1, "designation", "last")), 0);
    assert_eq!(lent.number(&add_destination(1, "designation", "last")), 14);
    assert_eq!(full_ends(2).number(&add_destination(1, "pair", "last")), 0);
}

#[test]
fn import_of_what_is_present() {
    assert_eq!(some_base().number(&import(2, 1, "size", "", "")), 9);
    assert_eq!(some_base().number(&import(2, 1, "size", "thing", "")), 9);
}

#[test]
fn rename_to_its_own_name() {
    let mut lent = some_base();
    let before = lent.0.clone();
    assert_eq!(lent.call(&rename(1, "part", "part")), [0; 4]);
    assert!(lent.0 == before);
    lent.done(&rename(1, "part", "a"));
    assert_eq!(lent.number(&find(&[1], "part")), 6);
    assert_eq!(lent.done(&find(&[1], "a")), PART);
    lent.done(&rename(1, "a", "part"));
    assert!(lent.0 == before);
}

#[test]
fn categories_of_a_pair() {
    for category in 0..6 {
        for reverse_category in 0..6 {
            let is_refused = category > 3 || reverse_category > 3 || (category, reverse_category) == (3, 3);
            let call = new_pair(1, "new", "newer", category, reverse_category);
            assert_eq!(some_base().number(&call), if is_refused { 5 } else { 0 });
        }
    }
}

#[test]
fn length_of_an_output() {
    let mut lent = some_base();
    let ancestors = scan_object(&[1], PART, 3);
    for (length, number) in [(0, 15), (2, 15), (3, 15), (4, 0), (5, 0), (6, 0)] {
        assert_eq!(lent.with_output(&ancestors, length).0[0], number, "{length}");
    }
    assert_eq!(lent.with_output(&ancestors, 7), ([0, 2, 0, 0], vec![0, 0, UNIT as u8, 0, 0xee, 0xee, 0xee]));
}

#[test]
fn worked_sequence() {
    let mut lent = Lent::fresh();
    assert_eq!(lent.call(&new_sds("bus")), [0, 1, 0, 0]);
    assert_eq!(lent.call(&import(1, 0, "object", "", "")), [0, 0, 0, 0]);
    assert_eq!(lent.call(&new_object(1, "unit", "object")), [0, 1, 0, 0]);
    assert_eq!(lent.call(&new_object(1, "template", "unit")), [0, 2, 0, 0]);
    assert_eq!(lent.call(&new_object(1, "radio", "unit")), [0, 3, 0, 0]);
    assert_eq!(lent.call(&new_object(1, "fifo", "template radio")), [0, 4, 0, 0]);
    assert_eq!(lent.call(&new_object(1, "fifo2", "radio template")), [0, 5, 0, 0]);
    assert_eq!(lent.call(&find(&[1], "template")), [0, 2, 0, 0]);
    assert_eq!(lent.list(&scan_object(&[1], 2, 1)), ([2, 0, 0], vec![4, 5]));
    assert_eq!(lent.call(&find(&[1], "fifo")), [0, 4, 0, 0]);
    assert_eq!(lent.call(&depth(&[1], 4)), [0, 3, 0, 0]);
    assert_eq!(lent.call(&remove_type(1, "template")), [16, 4, 0, 0]);
    assert_eq!(lent.call(&remove_type(1, "fifo")), [0, 4, 0, 0]);
    assert_eq!(lent.call(&new_object(1, "adc", "fifo2")), [0, 4, 0, 0]);
    assert_eq!(lent.list(&scan_object(&[1], 2, 1)), ([2, 0, 0], vec![4, 5]));
    assert_eq!(lent.call(&depth(&[1], 4)), [0, 4, 0, 0]);
    assert_eq!(lent.call(&descendant_set(&[1], 2)), [0, 0b11_0000, 0, 2]);
}

// What the calls do.

#[test]
fn import_of_a_pair_by_either_name() {
    let mut lent = some_base();
    assert_eq!(lent.call(&import(2, 1, "of", "first", "")), [0, 6, 5, 0]);
    assert_eq!(lent.done(&find(&[2], "first")), 6);
    assert_eq!(lent.done(&find(&[2], "has")), 5);
    // The new names may be the old ones exchanged.
    let mut lent = some_base();
    assert_eq!(lent.call(&import(2, 1, "has", "of", "has")), [0, 5, 6, 0]);
    assert_eq!(lent.done(&find(&[2], "of")), 5);
}

#[test]
fn removed_type_stays_where_else_it_is_present() {
    let mut lent = some_base();
    lent.done(&import(2, 1, "of", "", ""));
    for taken in [unapply_link(1, "has", "unit"), remove_type(1, "of"), unapply(1, "size", "unit")] {
        lent.done(&taken);
    }
    assert_eq!(lent.number(&find(&[1], "has")), 6);
    assert_eq!(lent.done(&find(&[2], "has")), HAS);
    // Size has a presence in SDS 2 left, the designation type has none: its number is free.
    lent.done(&remove_type(1, "size"));
    lent.done(&remove_type(1, "sees"));
    assert_eq!(lent.done(&new_attribute(1, "new", 0)), 4);
}

// What stands in the way of a removal, on both sides. The lowest type is told.

const DONE: [usize; 2] = [0, 0];

/// Makes the calls in turn; each answers the number and the first value, and no other.
fn answer_in_turn(mut lent: Lent, calls: &[(Call, [usize; 2])]) {
    for (call, [no, one]) in calls {
        assert_eq!(lent.call(call), [*no, *one, 0, 0], "{call:?}");
    }
}

#[test]
fn lowest_type_of_an_sds() {
    let calls = [
        (new_attribute(3, "b", 0), [0, 7]),
        (remove_sds(3), [12, 7]),
        // The lower ones have the later names.
        (import(3, 1, "size", "c", ""), [0, SIZE]),
        (remove_sds(3), [12, SIZE]),
        (import(3, 0, "object", "d", ""), DONE),
        (remove_sds(3), [12, 0]),
        (remove_type(3, "c"), [0, SIZE]),
        (remove_type(3, "b"), [0, 7]),
        (remove_sds(3), [12, 0]),
        (remove_type(3, "d"), DONE),
        (remove_sds(3), DONE),
        (remove_sds(3), [2, 0]),
    ];
    answer_in_turn(some_base(), &calls);
}

#[test]
fn lowest_child() {
    let calls = [
        (new_attribute(1, "low", 0), [0, 1]),
        (new_object(1, "unit", "object"), [0, 2]),
        (new_object(1, "a", "unit"), [0, 3]),
        (remove_type(1, "unit"), [16, 3]),
        // A number below that of its parent, and the last name.
        (remove_type(1, "low"), [0, 1]),
        (new_object(1, "z", "unit object"), [0, 1]),
        (remove_type(1, "unit"), [16, 1]),
        (remove_type(1, "object"), [16, 1]),
        (remove_type(1, "z"), [0, 1]),
        (remove_type(1, "unit"), [16, 3]),
        // A child of a child is none.
        (new_object(1, "low", "a"), [0, 1]),
        (remove_type(1, "unit"), [16, 3]),
        (remove_type(1, "low"), [0, 1]),
        // What another SDS holds doesn't count.
        (import(2, 1, "unit", "", ""), [0, 2]),
        (import(2, 1, "a", "", ""), [0, 3]),
        (remove_type(1, "a"), [0, 3]),
        (remove_type(2, "unit"), [16, 3]),
        (remove_type(1, "unit"), [0, 2]),
    ];
    answer_in_turn(two_sdss(), &calls);
}

#[test]
fn lowest_type_that_an_attribute_type_is_applied_to() {
    let calls = [
        (apply(1, "size", "of"), DONE),
        (apply(1, "size", "object"), DONE),
        (remove_type(1, "size"), [17, 0]),
        (unapply(1, "size", "object"), DONE),
        (remove_type(1, "size"), [17, UNIT]),
        (unapply(1, "size", "unit"), DONE),
        (remove_type(1, "size"), [17, 6]),
        (apply(1, "size", "sees"), DONE),
        (remove_type(1, "size"), [17, 4]),
        // Applied in another SDS.
        (remove_type(2, "unit"), [0, SIZE]),
        (unapply(1, "size", "sees"), DONE),
        (unapply(1, "size", "of"), DONE),
        (remove_type(1, "size"), [0, SIZE]),
    ];
    answer_in_turn(some_base(), &calls);
}

#[test]
fn lowest_attribute_type_applied_to_a_type() {
    let calls = [
        (new_attribute(1, "a", 0), [0, 7]),
        (apply(1, "a", "part"), DONE),
        (apply(1, "a", "sees"), DONE),
        (remove_type(1, "part"), [17, 7]),
        (remove_type(1, "sees"), [17, 7]),
        (apply(1, "size", "part"), DONE),
        (apply(1, "size", "sees"), DONE),
        (remove_type(1, "part"), [17, SIZE]),
        (remove_type(1, "sees"), [17, SIZE]),
        (unapply(1, "size", "part"), DONE),
        (unapply(1, "size", "sees"), DONE),
        (unapply(1, "a", "sees"), DONE),
        (remove_type(1, "sees"), [0, 4]),
        (remove_type(1, "part"), [17, 7]),
        (unapply(1, "a", "part"), DONE),
        (remove_type(1, "part"), [0, PART]),
    ];
    answer_in_turn(some_base(), &calls);
}

/// Over both of the pair, by either name.
#[test]
fn lowest_attribute_type_applied_to_a_pair() {
    let mut lent = some_base();
    lent.done(&unapply_link(1, "has", "unit"));
    lent.done(&new_attribute(1, "a", 0));
    for (change, lowest) in [
        (apply(1, "a", "of"), 7),
        (apply(1, "size", "has"), SIZE),
        (unapply(1, "a", "of"), SIZE),
        (apply(1, "a", "has"), SIZE),
        (unapply(1, "size", "has"), 7),
        (apply(1, "size", "of"), SIZE),
        (unapply(1, "a", "has"), SIZE),
    ] {
        lent.done(&change);
        for name in ["has", "of"] {
            assert_eq!(lent.call(&remove_type(1, name)), [17, lowest, 0, 0], "{change:?}, {name}");
        }
    }
    lent.done(&unapply(1, "size", "of"));
    assert_eq!(lent.call(&remove_type(1, "has")), [0, HAS, 0, 0]);
}

#[test]
fn lowest_link_type_that_an_object_type_is_an_end_of() {
    let calls = [
        (add_destination(1, "of", "part"), DONE),
        (remove_type(1, "part"), [18, HAS]),
        (add_destination(1, "sees", "part"), DONE),
        (remove_type(1, "part"), [18, 4]),
        (unapply_link(1, "has", "part"), DONE),
        (remove_type(1, "part"), [18, 4]),
        (remove_destination(1, "sees", "part"), DONE),
        (remove_type(1, "part"), [0, PART]),
    ];
    answer_in_turn(some_base(), &calls);
}

/// On either side, and by either name of a pair.
#[test]
fn lowest_object_type_that_is_an_end() {
    let mut lent = some_base();
    lent.done(&import(2, 1, "has", "", ""));
    let calls = [
        (apply_link(1, "sees", "part"), DONE),
        (remove_type(1, "sees"), [18, PART]),
        (add_destination(1, "sees", "unit"), DONE),
        (remove_type(1, "sees"), [18, UNIT]),
        (remove_destination(1, "sees", "unit"), DONE),
        (unapply_link(1, "sees", "part"), DONE),
        (remove_type(1, "sees"), [0, 4]),
        (add_destination(1, "has", "object"), DONE),
        (remove_type(1, "has"), [18, 0]),
        (remove_type(1, "of"), [18, 0]),
        (unapply_link(1, "of", "object"), DONE),
        (remove_type(1, "has"), [18, UNIT]),
        (remove_type(1, "of"), [18, UNIT]),
        // Ends in another SDS.
        (remove_type(2, "of"), [0, 6]),
        (remove_destination(1, "of", "unit"), DONE),
        (remove_type(1, "of"), [0, 6]),
    ];
    answer_in_turn(lent, &calls);
}

#[test]
fn one_obstacle_after_the_other() {
    let calls = [
        (remove_type(1, "unit"), [16, PART]),
        (remove_type(1, "part"), [0, PART]),
        (remove_type(1, "unit"), [17, SIZE]),
        (unapply(1, "size", "unit"), DONE),
        (remove_type(1, "unit"), [18, HAS]),
        (apply(1, "size", "of"), DONE),
        (remove_type(1, "has"), [17, SIZE]),
        (unapply(1, "size", "of"), DONE),
        (remove_type(1, "has"), [18, UNIT]),
        (unapply_link(1, "has", "unit"), DONE),
        (remove_type(1, "has"), [0, HAS]),
        (remove_type(1, "unit"), [0, UNIT]),
    ];
    answer_in_turn(some_base(), &calls);
}

#[test]
fn traits_of_a_removal() {
    let mut lent = some_base();
    lent.done(&import(3, 0, "object", "", ""));
    lent.done(&new_attribute(1, "a", 0));
    lent.done(&apply(1, "size", "of"));
    let mut has_traits = |call: Call, removal: &str, expected: &[&str]| {
        let answer = lent.call(&call);
        let expected: Vec<String> = expected.iter().map(|what| format!("{removal}{what}")).collect();
        assert_eq!(traits(&from_bytes(&lent.0).unwrap(), &call, answer), expected);
    };
    has_traits(remove_sds(3), "12 of an SDS", &["", ", type 0"]);
    has_traits(remove_sds(1), "12 of an SDS", &["", ", one of several", ", not in the first row", ", type 0"]);
    has_traits(remove_type(1, "unit"), "16 of an object type", &["", ", before 17", ", before 18"]);
    has_traits(remove_type(1, "has"), "17 of a link type", &["", ", its reverse's", ", before 18"]);
    has_traits(remove_type(1, "of"), "17 of a link type", &["", ", before 18"]);
    has_traits(apply(1, "a", "has"), "", &[]);
    let both = ["", ", one of several", ", not in the first row", ", its reverse's below its own", ", before 18"];
    has_traits(remove_type(1, "has"), "17 of a link type", &both);
    has_traits(remove_type(2, "unit"), "0 of an attribute type", &[", 17 elsewhere"]);
}

#[test]
fn ends_come_and_go_with_their_mirrors() {
    let mut lent = some_base();
    lent.done(&add_destination(1, "has", "part"));
    assert_eq!(lent.list(&scan_link(&[1], 6, 0)).1, [2]);
    lent.done(&unapply_link(1, "of", "part"));
    lent.done(&remove_destination(1, "of", "unit"));
    assert!(ENDS.rows(&lent.0).all(|row| row == [0; 4]));
    lent.done(&add_destination(1, "sees", "part"));
    assert_eq!(ENDS.rows(&lent.0).next(), Some(&[1, 4, 1, 2][..]));
}

/// Types 1 to 9: top, left, right (of top), low (of left and right), attributes 5 and 6, pair 7 and 8, designation 9.
/// SDS 2 lacks the type low; each SDS has applications and ends of its own.
fn scanned_base() -> Lent {
    let mut lent = two_sdss();
    for call in [
        new_object(1, "top", "object"),
        new_object(1, "left", "top"),
        new_object(1, "right", "top"),
        new_object(1, "low", "left right"),
        new_attribute(1, "five", 5),
        new_attribute(1, "six", 0),
        new_pair(1, "seven", "eight", 1, 2),
        new_designation(1, "nine"),
        import(2, 1, "top", "", ""),
        import(2, 1, "left", "", ""),
        import(2, 1, "six", "five", ""),
        import(2, 1, "seven", "", ""),
        apply(1, "five", "low"),
        apply(1, "six", "top"),
        apply(1, "five", "nine"),
        apply(2, "five", "left"),
        apply_link(1, "seven", "left"),
        apply_link(1, "nine", "low"),
        add_destination(1, "nine", "top"),
        add_destination(2, "seven", "top"),
    ] {
        lent.done(&call);
    }
    lent
}

#[test]
fn scans_of_an_object_type() {
    let (top, left, right, low) = (1, 2, 3, 4);
    let expected: [(&[u8], usize, usize, &[u16]); 28] = [
        (&[1], top, 0, &[2, 3]),
        (&[2], top, 0, &[2]),
        (&[0, 1, 2], 0, 0, &[1]),
        (&[1], top, 1, &[2, 3, 4]),
        (&[2], 0, 1, &[1, 2]),
        (&[1], low, 2, &[2, 3]),
        (&[1], 0, 2, &[]),
        (&[1], low, 3, &[0, 1, 2, 3]),
        (&[2], left, 3, &[0, 1]),
        (&[1], low, 4, &[5]),
        (&[1], left, 4, &[]),
        (&[2], left, 4, &[6]),
        (&[1], low, 5, &[5, 6]),
        (&[2], left, 5, &[6]),
        (&[1], right, 5, &[6]),
        (&[2], top, 5, &[]),
        (&[1], left, 6, &[7]),
        (&[1], low, 6, &[9]),
        (&[2], left, 6, &[]),
        (&[1], low, 7, &[7, 9]),
        (&[2], left, 7, &[8]),
        (&[0, 1, 2], low, 7, &[7, 8, 9]),
        (&[1], left, 8, &[8]),
        (&[1], low, 8, &[]),
        (&[2, 1], top, 8, &[7, 9]),
        (&[1], low, 9, &[8, 9]),
        (&[2], left, 9, &[7]),
        (&[0], 0, 9, &[]),
    ];
    for (schema, ty, code, list) in expected {
        let call = scan_object(schema, ty, code);
        assert_eq!(scanned_base().list(&call), ([list.len(), 0, 0], list.to_vec()), "{call:?}");
    }
}

#[test]
fn scans_of_a_link_type() {
    let (seven, eight, nine) = (7, 8, 9);
    let expected: [(&[u8], usize, usize, &[u16]); 14] = [
        (&[1], seven, 0, &[2]),
        (&[2], seven, 0, &[]),
        (&[2], eight, 0, &[1]),
        (&[1], seven, 1, &[2, 4]),
        (&[2], eight, 1, &[1, 2]),
        (&[1, 2], eight, 1, &[1, 2, 3, 4]),
        (&[1], seven, 2, &[]),
        (&[2], seven, 2, &[1]),
        (&[0, 1, 2], eight, 2, &[2]),
        (&[2], seven, 3, &[1, 2]),
        (&[2, 1], seven, 3, &[1, 2, 3, 4]),
        (&[1], nine, 3, &[1, 2, 3, 4]),
        (&[1], nine, 4, &[5]),
        (&[1], seven, 4, &[]),
    ];
    for (schema, ty, code, list) in expected {
        let call = scan_link(schema, ty, code);
        assert_eq!(scanned_base().list(&call), ([list.len(), 0, 0], list.to_vec()), "{call:?}");
    }
}

#[test]
fn profile_is_three_lists_one_behind_the_other() {
    assert_eq!(scanned_base().list(&profile(&[1], 4)), ([4, 2, 2], vec![0, 1, 2, 3, 5, 6, 7, 9]));
    assert_eq!(scanned_base().list(&profile(&[2], 2)), ([2, 1, 1], vec![0, 1, 6, 8]));
    assert_eq!(scanned_base().list(&profile(&[0], 0)), ([0, 0, 0], vec![]));
}

#[test]
fn find_takes_the_first_listed() {
    let mut lent = scanned_base();
    assert_eq!(lent.done(&find(&[1, 2], "five")), 5);
    assert_eq!(lent.done(&find(&[2, 1], "five")), 6);
    assert_eq!(lent.done(&find(&[2, 1], "low")), 4);
    assert_eq!(lent.done(&find(&[0, 1, 2], "five")), 5);
    assert_eq!(lent.number(&find(&[2], "low")), 6);
    assert_eq!(lent.number(&find(&[2, 2], "low")), 6);
}

/// Attribute-all under a join gives more than under the two lists apart (02, Q-10): the one SDS holds the type and its
/// parent, the other the parent with what is applied to it.
#[test]
fn attribute_all_of_a_join() {
    let mut lent = two_sdss();
    for call in [
        new_object(1, "base", "object"),
        new_object(1, "unit", "base"),
        import(2, 1, "base", "", ""),
        new_attribute(2, "mass", 3),
        apply(2, "mass", "base"),
    ] {
        lent.done(&call);
    }
    let (unit, mass) = (2, 3);
    assert_eq!(lent.list(&scan_object(&[1], unit, 5)), ([0; 3], vec![]));
    assert_eq!(lent.number(&scan_object(&[2], unit, 5)), 6);
    for join in [[1, 2], [2, 1]] {
        assert_eq!(lent.list(&scan_object(&join, unit, 5)), ([1, 0, 0], vec![mass]));
    }
}

/// With all SDSs listed each is done, with none it is 6, and nothing is put down.
#[test]
fn empty_list_shows_nothing() {
    let mut lent = scanned_base();
    for (list, number) in [(&[0, 1, 2][..], 0), (&[], 6)] {
        let mut questions = vec![profile(list, 4), find(list, "low"), depth(list, 4), descendant_set(list, 1)];
        questions.extend((0..10).map(|ty| modes(list, ty)));
        questions.extend((0..10).map(|code| scan_object(list, 4, code)));
        questions.extend((0..5).map(|code| scan_link(list, 7, code)));
        for question in questions {
            assert_eq!(lent.with_output(&question, 40).0[0], number, "{question:?}");
        }
    }
}

#[test]
fn depth_is_the_longest_way() {
    let mut lent = scanned_base();
    let deep = lent.done(&new_object(1, "deep", "object low"));
    assert_eq!(lent.call(&depth(&[0, 1, 2], deep)), [0, 4, 0, 0]);
    assert_eq!(lent.number(&depth(&[2], deep)), 6);
    // Many ways up: a chain in which each type has the four before it as parents.
    let mut lent = two_sdss();
    lent.done(&rename(1, "object", "t0"));
    for number in 1..Schema::TYPES {
        let parents: Vec<String> = (number.saturating_sub(4)..number).map(|parent| format!("t{parent}")).collect();
        lent.done(&new_object(1, &format!("t{number}"), &parents.join(" ")));
    }
    assert_eq!(lent.call(&depth(&[1], 127)), [0, 127, 0, 0]);
    assert_eq!(lent.call(&descendant_set(&[1], 0)), [0, usize::MAX - 1, usize::MAX, 127]);
    assert_eq!(lent.call(&descendant_set(&[2], 0)), [0; 4]);
}

#[test]
fn name_is_a_stretch_of_the_base() {
    let mut lent = scanned_base();
    for (sds, ty, expected) in [(0, 0, "object"), (1, 0, "object"), (1, 4, "low"), (2, 6, "five"), (2, 1, "top")] {
        let [no, start, length, three] = lent.call(&name(sds, ty));
        assert_eq!((no, &lent.0[start..][..length], three), (0, expected.as_bytes(), 0));
    }
}

// Names in another spelling (02, Q-5).

/// A to Z are a to z, each in each place, and no other byte is another.
#[test]
fn which_names_are_the_same() {
    let all: Vec<u8> = (0..=255).collect();
    for (first, second) in all.iter().flat_map(|first| all.iter().map(move |second| (*first, *second))) {
        let (name, other) = (Name::new([b'a', first]), Name::new([b'a', second]));
        if !is_name(&name) || !is_name(&other) {
            continue;
        }
        let is_other_case = first.is_ascii_alphabetic() && second.is_ascii_alphabetic() && first ^ second == 0x20;
        assert_eq!(is_same(&name, &other), first == second || is_other_case, "{name:?} {other:?}");
    }
    let long = "abcdefghijklmnop";
    for at in 0..long.len() {
        let mut other = Name::new(long);
        other.0[at].make_ascii_uppercase();
        assert!(is_same(&other, long.as_bytes()) && !is_same(&other, &long.as_bytes()[1..]));
        assert!(!is_same(&other, &long.as_bytes()[..15]));
    }
}

#[test]
fn every_drawn_schema_is_sound() {
    let mut random = Random::new(1);
    for draw in [removals::draw, spellings::draw, modes::draw, nameless::draw, nameless::full, joins::draw] {
        for s in (0..200).map(|_| draw(&mut random)) {
            assert!(is_sound(&to_bytes(&s)));
        }
    }
}

/// Both sides: names that are those of another in another spelling, and names that are not.
#[test]
fn taken_in_another_spelling() {
    let calls = [
        (11, new_sds("System")),
        (11, new_sds("SYSTEM")),
        (11, new_sds("onE")),
        (0, new_sds("systems")),
        (0, new_sds("System_")),
        (11, new_object(1, "Unit", "part")),
        (0, new_object(1, "Units", "part")),
        (11, new_attribute(1, "oBject", 0)),
        (0, new_attribute(2, "oBject", 0)),
        (11, new_designation(1, "SEES")),
        (0, new_designation(1, "SEE")),
        (11, new_pair(1, "Has", "new", 0, 0)),
        (11, new_pair(1, "new", "Has", 0, 0)),
        (11, new_pair(1, "new", "nEw", 0, 0)),
        (11, new_pair(1, "A", "a", 0, 0)),
        (0, new_pair(1, "new", "new_", 0, 0)),
        (11, import(2, 1, "sees", "Unit", "")),
        (11, import(2, 1, "Unit", "", "")),
        (11, import(2, 1, "has", "", "UNIT")),
        (11, import(2, 1, "has", "OF", "")),
        (11, import(2, 1, "has", "", "HAS")),
        (11, import(2, 1, "has", "New", "new")),
        (0, import(2, 1, "has", "OF", "HAS")),
        (9, import(2, 1, "SIZE", "", "")),
        (0, import(2, 1, "Part", "", "")),
        (11, rename(1, "Part", "UNIT")),
        (0, rename(1, "Part", "PARTS")),
        (8, new_object(1, "new", "Unit unit")),
        (8, new_object(1, "new", "unit part uNit")),
        (0, new_object(1, "new", "Unit Part")),
        (6, new_object(1, "new", "Unit Parts")),
        (4, new_object(1, "new", "unit uni[")),
        (4, find(&[1], "siz@")),
        (6, find(&[1], "siz_")),
        (8, find(&[1, 1], "Size")),
        (7, apply(1, "Unit", "Size")),
        (9, apply(1, "Size", "Unit")),
        (13, unapply(1, "Size", "Part")),
        (9, apply_link(1, "Has", "Unit")),
        (13, remove_destination(1, "SEES", "PART")),
    ];
    for (number, call) in calls {
        assert_eq!(some_base().number(&call), number, "{call:?}");
    }
    assert_eq!(some_base().call(&remove_type(1, "UNIT")), [16, PART, 0, 0]);
}

#[test]
fn found_in_another_spelling() {
    let calls = [
        (find(&[1], "UNIT"), [0, UNIT]),
        (find(&[2, 1], "Unit"), [0, SIZE]),
        (new_object(1, "New", "PART Object"), [0, 7]),
        (apply(1, "SIZE", "new"), DONE),
        (unapply(1, "Size", "NEW"), DONE),
        (apply_link(1, "Sees", "NEW"), DONE),
        (unapply_link(1, "SEES", "nEw"), DONE),
        (add_destination(1, "HAS", "Part"), DONE),
        (remove_destination(1, "Has", "PART"), DONE),
        (rename(1, "NEW", "Newest"), DONE),
        (find(&[1], "new"), [6, 0]),
        (remove_type(1, "NEWEST"), [0, 7]),
        (find(&[1], "newest"), [6, 0]),
    ];
    answer_in_turn(some_base(), &calls);
}

/// How a type is named in an SDS.
fn spelling(lent: &mut Lent, sds: usize, ty: usize) -> String {
    let [no, start, length, _] = lent.call(&name(sds, ty));
    assert_eq!(no, 0);
    String::from_utf8(lent.0[start..][..length].to_vec()).expect("a name")
}

/// The spelling is another, and the row stays where it is.
#[test]
fn rename_to_another_spelling() {
    let renamings = [("part", "Part"), ("PART", "pARt"), ("paRT", "PArt"), ("PART", "PART"), ("Part", "part")];
    let mut lent = some_base();
    let first = lent.0.clone();
    for (given, new_name) in renamings {
        let before = lent.0.clone();
        let row = lent.call(&name(1, PART));
        assert_eq!(lent.call(&rename(1, given, new_name)), [0; 4]);
        assert!(lent.0 != before, "{given} {new_name}");
        assert_eq!((spelling(&mut lent, 1, PART).as_str(), lent.call(&name(1, PART))), (new_name, row));
        assert_eq!(lent.done(&find(&[1], "pART")), PART);
    }
    assert!(lent.0 == first);
    // Its own name, asked for in another spelling, changes nothing.
    assert_eq!(lent.call(&rename(1, "PART", "part")), [0; 4]);
    assert!(lent.0 == first);
    // Another's is taken in every spelling; that of another SDS is not.
    assert_eq!(lent.number(&rename(1, "part", "Unit")), 11);
    assert_eq!(lent.number(&rename(1, "part", "THING")), 0);
}

#[test]
fn import_keeps_the_spelling() {
    let mut lent = some_base();
    lent.done(&rename(1, "has", "Has"));
    lent.done(&rename(1, "of", "oF"));
    assert_eq!(lent.call(&import(2, 1, "HAS", "", "")), [0, HAS, 6, 0]);
    assert_eq!([spelling(&mut lent, 2, HAS), spelling(&mut lent, 2, 6)], ["Has", "oF"]);
    lent.done(&import(3, 1, "OF", "", "hAS"));
    assert_eq!([spelling(&mut lent, 3, HAS), spelling(&mut lent, 3, 6)], ["hAS", "oF"]);
    lent.done(&import(3, 2, "uNIT", "UNIT", ""));
    assert_eq!([spelling(&mut lent, 3, SIZE), spelling(&mut lent, 2, SIZE)], ["UNIT", "unit"]);
}

/// An underscore stands behind the digits and before the letters, which stand alike in either case.
#[test]
fn rows_stand_by_lowered_names() {
    let names = ["a", "A0", "a0_", "A_", "a_9", "AA", "ab", "aB_", "ABA", "Az", "az_", "B", "z", "ZZ"];
    let mut random = Random::new(1);
    for _ in 0..50 {
        let mut lent = Lent::fresh();
        lent.done(&new_sds("One"));
        for name in random.shuffled(names.to_vec()) {
            lent.done(&new_attribute(1, name, 0));
        }
        let rows: Vec<Vec<u8>> = PRESENCES.rows(&lent.0).skip(1).take(names.len()).map(<[u8]>::to_vec).collect();
        for (row, name) in rows.iter().zip(names) {
            assert!(row[1..].starts_with(name.as_bytes()) && row[1 + name.len()] == 0, "{name}");
        }
        // By bytes, and as capitals, they would stand otherwise, and the base would not be sound.
        let mut otherwise = [rows.clone(), rows];
        otherwise[0].sort();
        otherwise[1].sort_by_key(|row| row[1..17].to_ascii_uppercase());
        for rows in otherwise {
            let mut base = lent.0.clone();
            base[PRESENCES.start + PRESENCES.width..][..rows.len() * PRESENCES.width]
                .copy_from_slice(&rows.concat());
            assert!(base != lent.0 && !is_sound(&base));
        }
    }
}

/// Numbers that letters have as bytes are numbers: 70 stands before 97.
#[test]
fn numbers_are_not_lowered() {
    let mut lent = two_sdss();
    for number in 1..=122 {
        lent.done(&new_object(1, &format!("o{number}"), "object"));
    }
    lent.done(&new_attribute(1, "a", 0));
    lent.done(&new_designation(1, "d"));
    for number in [97, 70, 122, 90, 65, 103] {
        lent.done(&apply(1, "A", &format!("O{number}")));
        lent.done(&apply_link(1, "D", &format!("O{number}")));
    }
    let rising = [65, 70, 90, 97, 103, 122];
    assert!(APPLICATIONS.rows(&lent.0).take(6).map(|row| row[1]).eq(rising));
    assert!(ENDS.rows(&lent.0).take(6).map(|row| row[3]).eq(rising));
    assert!(is_sound(&lent.0));
}

#[test]
fn traits_of_a_spelling() {
    let mut lent = some_base();
    let mut has_traits = |call: Call, expected: &[&str]| {
        let before = from_bytes(&lent.0).unwrap();
        let no = lent.number(&call);
        let mut traits = Traits::of(&call);
        spellings::add_traits(&mut traits, &before, &call);
        assert_eq!(traits.answered([no, 0, 0, 0]).collect::<Vec<_>>(), expected, "{call:?}");
    };
    has_traits(new_sds("System"), &["new_sds 11", "new_sds 11, SDS 0"]);
    has_traits(new_sds("system"), &[]);
    has_traits(new_sds("syste["), &["4, a byte beside the letters"]);
    has_traits(new_object(1, "new", "Unit unit"), &["new_object 8"]);
    has_traits(new_object(1, "new", "unit unit"), &[]);
    has_traits(new_pair(1, "A", "a", 0, 0), &["new_pair 11, the two alike"]);
    has_traits(new_pair(1, "Has", "new", 0, 0), &["new_pair 11, the first name"]);
    has_traits(new_pair(1, "Has", "oF", 0, 0), &[]);
    has_traits(new_pair(1, "hAs", "new", 0, 0), &["new_pair 11, the first name", "A alone"]);
    has_traits(import(2, 1, "has", "", "Unit"), &["import 11, a given reverse name"]);
    has_traits(import(2, 1, "Unit", "", ""), &[]);
    has_traits(rename(1, "unit", "Unit"), &["rename 0, the spelling alone", "rename 0, elsewhere by bytes"]);
    has_traits(import(2, 1, "unit", "", ""), &["import 11, a filled name"]);
    has_traits(rename(2, "unit", "z"), &[]);
    let filled =
        ["import 0, its name", "import 0, capitals filled in", "import 0, filled in as kept and not as asked for"];
    has_traits(import(2, 1, "uniT", "", ""), &[&filled[..], &["import 0, elsewhere by bytes"]].concat());
    has_traits(find(&[1], "siZe"), &["find 0", "Z alone"]);
    has_traits(find(&[1], "si_e"), &["find 6, but for a byte"]);
    has_traits(remove_type(1, "UNIT"), &["remove_type 16 to 18"]);
    // By bytes "Unit" stands first.
    has_traits(new_attribute(1, "s_", 0), &["new_attribute 0, elsewhere by bytes", "elsewhere by capitals"]);
}

// Modes (02, Q-2).

/// Sets on both sides of 31; which of the two is at fault doesn't matter.
#[test]
fn edges_of_a_set() {
    for usage in 0..300 {
        for definition in [0, 1, 31, 32, 255, 256] {
            let is_known = usage <= 31 && definition <= 31;
            let mut lent = some_base();
            assert_eq!(lent.number(&set_modes(1, "unit", usage, definition)), if is_known { 0 } else { 19 });
            let expected = if is_known { [0, usage, definition, 0] } else { [0, 31, 31, 0] };
            assert_eq!(lent.call(&modes(&[1], UNIT)), expected);
        }
    }
    for over in [257, (1 << 32) + 1, usize::MAX] {
        assert_eq!(some_base().number(&set_modes(1, "unit", over, 1)), 19);
        assert_eq!(some_base().number(&set_modes(1, "unit", 1, over)), 19);
    }
}

/// What is made, by each call, and what a fresh base holds.
#[test]
fn made_with_all_modes() {
    let mut lent = some_base();
    assert_eq!(lent.call(&modes(&[0], 0)), [0, 31, 31, 0]);
    for ty in 0..=6 {
        assert_eq!(lent.call(&modes(&[1], ty)), [0, 31, 31, 0]);
    }
}

/// In one SDS alone; nothing of the base but bytes 18 and 19 of the row is another.
#[test]
fn modes_are_set() {
    let mut lent = some_base();
    let mut expected = lent.0.clone();
    for (sds, name_given, ty, row) in
        [(1, "Object", 0, 2), (1, "part", PART, 4), (1, "SEES", 4, 5), (1, "size", SIZE, 6), (2, "unit", SIZE, 9)]
    {
        for (usage, definition) in [(0, 0), (31, 31), (1, 2), (16, 0), (0, 8), (5, 26)] {
            assert_eq!(lent.call(&set_modes(sds, name_given, usage, definition)), [0; 4]);
            expected[PRESENCES.start + row * PRESENCES.width + 18..][..2]
                .copy_from_slice(&[usage as u8, definition as u8]);
            assert!(lent.0 == expected, "{name_given}");
            assert_eq!(lent.call(&modes(&[sds as u8], ty)), [0, usage, definition, 0]);
        }
    }
    // Type 0 and size are elsewhere too.
    assert_eq!(lent.call(&modes(&[0], 0)), [0, 31, 31, 0]);
    assert_eq!(lent.call(&modes(&[2], 0)), [0, 31, 31, 0]);
}

/// By either name, and asked by both.
#[test]
fn modes_of_a_pair() {
    let mut lent = some_base();
    lent.done(&import(2, 1, "has", "", ""));
    for (sds, given, usage, definition) in [(1, "has", 1, 2), (1, "of", 4, 0), (2, "OF", 31, 8), (2, "Has", 0, 31)]
    {
        let elsewhere = lent.call(&modes(&[3 - sds as u8], HAS));
        lent.done(&set_modes(sds, given, usage, definition));
        for ty in [HAS, 6] {
            assert_eq!(lent.call(&modes(&[sds as u8], ty)), [0, usage, definition, 0]);
            assert_eq!(lent.call(&modes(&[3 - sds as u8], ty)), elsewhere);
        }
    }
    assert_eq!(lent.call(&modes(&[1, 2], 6)), [0, 4, 31, 0]);
}

#[test]
fn modes_are_the_union_of_those_listed() {
    let mut lent = some_base();
    lent.done(&set_modes(1, "size", 1 | 4, 0));
    lent.done(&set_modes(2, "unit", 4 | 8, 16));
    for (list, expected) in [
        (&[1][..], [0, 5, 0, 0]),
        (&[2], [0, 12, 16, 0]),
        (&[1, 2], [0, 13, 16, 0]),
        (&[2, 1], [0, 13, 16, 0]),
        (&[3, 2, 0], [0, 12, 16, 0]),
        (&[0, 1, 2, 3], [0, 13, 16, 0]),
        (&[0, 3], [6, 0, 0, 0]),
        (&[], [6, 0, 0, 0]),
        (&[1, 1], [8, 0, 0, 0]),
        (&[3, 3], [6, 0, 0, 0]),
        (&[1, 2, 4], [2, 0, 0, 0]),
    ] {
        assert_eq!(lent.call(&modes(list, SIZE)), expected, "{list:?}");
    }
    lent.done(&set_modes(1, "size", 0, 0));
    assert_eq!(lent.call(&modes(&[1], SIZE)), [0; 4]);
}

#[test]
fn modes_kept_by_a_rename() {
    let mut lent = some_base();
    lent.done(&set_modes(1, "unit", 3, 24));
    lent.done(&set_modes(1, "of", 0, 1));
    for renamed in [rename(1, "unit", "a"), rename(1, "A", "zz"), rename(1, "zz", "ZZ"), rename(1, "has", "x")] {
        lent.done(&renamed);
        assert_eq!(lent.call(&modes(&[1], UNIT)), [0, 3, 24, 0]);
        assert_eq!(lent.call(&modes(&[1], HAS)), [0, 0, 1, 0]);
        assert_eq!(lent.call(&modes(&[1], PART)), [0, 31, 31, 0]);
    }
}

/// Whatever the source has, and whatever there was before.
#[test]
fn imported_with_all_modes() {
    let mut lent = some_base();
    lent.done(&unapply_link(1, "has", "unit"));
    for fewer in [set_modes(1, "unit", 0, 4), set_modes(1, "has", 1, 0), set_modes(1, "sees", 0, 0)] {
        lent.done(&fewer);
    }
    for imported in [import(2, 1, "unit", "u", ""), import(2, 1, "of", "", ""), import(2, 1, "sees", "", "")] {
        lent.done(&imported);
    }
    for ty in [UNIT, HAS, 6, 4] {
        assert_eq!(lent.call(&modes(&[2], ty)), [0, 31, 31, 0]);
    }
    assert_eq!(lent.call(&modes(&[1], 6)), [0, 1, 0, 0]);
    for call in
        [remove_type(1, "of"), import(1, 2, "has", "", ""), remove_type(1, "sees"), import(1, 2, "sees", "", "")]
    {
        lent.done(&call);
    }
    for ty in [HAS, 6, 4] {
        assert_eq!(lent.call(&modes(&[1], ty)), [0, 31, 31, 0]);
    }
    assert_eq!(lent.call(&modes(&[1], UNIT)), [0, 0, 4, 0]);
}

#[test]
fn traits_of_modes() {
    let (mut lent, mut gone) = (some_base(), Gone::default());
    let mut has_traits = |call: Call, expected: &[&str]| {
        let before = from_bytes(&lent.0).unwrap();
        let (mut traits, going) = (Traits::of(&call), Gone::going(&before, &call));
        modes::add_traits(&mut traits, &before, &gone, &call);
        let answer = lent.call(&call);
        if answer[0] == 0 && !call.asks() {
            gone.keep(&from_bytes(&lent.0).unwrap(), going);
        }
        let name = CALLS[call.index()].name;
        let expected: Vec<String> = expected.iter().map(|what| format!("{name} {what}")).collect();
        assert_eq!(traits.answered(answer).collect::<Vec<_>>(), expected, "{call:?}");
    };
    has_traits(set_modes(16, "unit", 0, 0), &["2"]);
    has_traits(set_modes(0, "unit", 0, 32), &["3", "3, before 19"]);
    has_traits(set_modes(1, "0", 32, 32), &["4", "4, before 19"]);
    has_traits(set_modes(1, "unit", 32, 0), &["19", "19, by usage alone", "19, by 32"]);
    let by_high_bytes = "19, by its high bytes alone";
    has_traits(set_modes(1, "u", 0, 257), &["19", "19, by definition alone", by_high_bytes, "19, before 6"]);
    has_traits(set_modes(1, "thing", 0, 31), &["6", "6, borne in another SDS"]);
    has_traits(set_modes(1, "part", 31, 31), &["0", "0, an object type", "0, to what it was"]);
    let pair = ["0", "0, a pair by its reverse name", "0, a pair in rows apart"];
    has_traits(set_modes(1, "of", 4, 31), &[&pair[..], &["0, usage alone"]].concat());
    let empty = ["0", "0, an attribute type", "0, to the empty set", "0, to both empty", "0, not in another SDS"];
    has_traits(set_modes(2, "unit", 0, 0), &empty);
    has_traits(modes(&[], UNIT), &["6", "6, an empty list"]);
    has_traits(modes(&[2, 2], UNIT), &["6", "6, in SDSs not listed", "6, before 8"]);
    has_traits(modes(&[1, 1], UNIT), &["8"]);
    let more = ["0, both empty", "0, in one of several listed", "0, more in an SDS not listed"];
    has_traits(modes(&[2, 3], SIZE), &[&["0", "0, an attribute type"], &more[..]].concat());
    let more = ["0, in two or more listed", "0, more than the first listed"];
    has_traits(modes(&[2, 1], SIZE), &[&["0", "0, an attribute type"], &more[..]].concat());
    has_traits(set_modes(1, "size", 1, 2), &["0", "0, an attribute type", "0, not in another SDS"]);
    has_traits(set_modes(2, "unit", 2, 2), &["0", "0, an attribute type", "0, not in another SDS"]);
    let more = ["0, in two or more listed", "0, a usage more than each", "0, more than the first listed"];
    has_traits(modes(&[2, 1], SIZE), &[&["0", "0, an attribute type"], &more[..]].concat());
    has_traits(import(3, 1, "has", "", ""), &["0, of fewer", "0, of a pair of fewer"]);
    has_traits(rename(1, "has", "hat"), &["0, of fewer", "0, of one of a pair of fewer"]);
    has_traits(rename(2, "unit", "a"), &["0, of fewer", "0, of fewer, to another row"]);
    has_traits(remove_type(2, "a"), &["0, of fewer"]);
    has_traits(import(2, 1, "size", "", ""), &["0, of fewer", "0, where there were fewer"]);
    has_traits(remove_type(2, "size"), &[]);
    has_traits(import(2, 1, "size", "", ""), &["0, of fewer"]);
}

// Nameless presences (02, Q-8).

/// SDS 1 holds unit 1, box 2, lid 3 and cap 4, one below the other, and mass 5; SDSs 2 and 3 hold nothing.
fn chained_base() -> Lent {
    let mut lent = Lent::fresh();
    for call in [
        new_sds("one"),
        new_sds("two"),
        new_sds("three"),
        import(1, 0, "object", "", ""),
        new_object(1, "unit", "object"),
        new_object(1, "box", "unit"),
        new_object(1, "lid", "box"),
        new_object(1, "cap", "lid"),
        new_attribute(1, "mass", 3),
    ] {
        lent.done(&call);
    }
    lent
}

const LID: usize = 3;
const CAP: usize = 4;

/// The rows of an SDS, each as its name and its type.
fn rows_of(lent: &Lent, sds: u8) -> Vec<(String, u8)> {
    let rows = PRESENCES.rows(&lent.0).filter(|row| row[0] == sds && row[1..].iter().any(|&byte| byte != 0));
    let text = |field: &[u8]| String::from_utf8(field.to_vec()).expect("a name").trim_end_matches('\0').to_string();
    rows.map(|row| (text(&row[1..17]), row[17])).collect()
}

fn are_rows(lent: &Lent, sds: u8, expected: &[(&str, u8)]) -> bool {
    rows_of(lent, sds).iter().map(|(name, ty)| (name.as_str(), *ty)).eq(expected.iter().copied())
}

#[test]
fn a_chain_comes_along() {
    let mut lent = chained_base();
    lent.done(&set_modes(1, "unit", 1, 2));
    lent.done(&set_modes(1, "lid", 0, 0));
    assert_eq!(lent.call(&import(2, 1, "cap", "", "")), [0, CAP, 0, 0]);
    assert!(are_rows(&lent, 2, &[("", 0), ("", 1), ("", 2), ("", 3), ("cap", 4)]));
    for ty in 0..=CAP {
        assert_eq!(lent.call(&modes(&[2], ty)), [0, 31, 31, 0]);
    }
    assert_eq!(lent.call(&modes(&[1], LID)), [0; 4]);
    // The field of a name stands one behind the row's start: row 7 is the first of SDS 2.
    assert_eq!(lent.call(&name(2, 0)), [0, 1421, 0, 0]);
    assert_eq!(lent.call(&name(2, LID)), [0, 1481, 0, 0]);
    assert_eq!(lent.call(&name(2, CAP)), [0, 1501, 3, 0]);
    // They are there, and no name means them.
    assert_eq!(lent.list(&scan_object(&[2], CAP, 3)).1, [0, 1, 2, 3]);
    assert_eq!(lent.list(&scan_object(&[2], 1, 1)).1, [2, 3, 4]);
    assert_eq!(lent.list(&profile(&[2], LID)), ([3, 0, 0], vec![0, 1, 2]));
    assert_eq!(lent.call(&depth(&[2], LID)), [0, 3, 0, 0]);
    assert_eq!(lent.call(&descendant_set(&[2], 0)), [0, 0b11110, 0, 4]);
    for call in [
        (6, find(&[2], "lid")),
        (4, find(&[2], "")),
        (6, new_object(2, "new", "lid")),
        (4, new_object(2, "new", "cap ")),
        (6, remove_type(2, "lid")),
        (6, rename(2, "lid", "new")),
        (6, set_modes(2, "lid", 0, 0)),
        (9, import(2, 1, "lid", "", "")),
        (9, import(2, 1, "lid", "cap", "")),
        (6, import(3, 2, "lid", "", "")),
        (4, import(3, 2, "", "", "")),
    ] {
        assert_eq!(lent.number(&call.1), call.0, "{:?}", call.1);
    }
    assert_eq!(lent.done(&find(&[2, 1], "lid")), LID);
}

/// Each comes once: box and lid are of unit, cap of both, and gap, with the lowest number, of cap.
#[test]
fn a_diamond_comes_along() {
    let mut lent = two_sdss();
    for call in [
        new_attribute(1, "low", 0),
        new_object(1, "unit", "object"),
        new_object(1, "box", "unit"),
        new_object(1, "lid", "unit object"),
        new_object(1, "cap", "box lid"),
        remove_type(1, "low"),
        new_object(1, "gap", "cap"),
    ] {
        lent.done(&call);
    }
    assert_eq!(lent.call(&import(2, 1, "gap", "", "")), [0, 1, 0, 0]);
    assert!(are_rows(&lent, 2, &[("", 2), ("", 3), ("", 4), ("", 5), ("gap", 1), ("object", 0)]));
    assert_eq!(lent.list(&scan_object(&[2], 1, 3)).1, [0, 2, 3, 4, 5]);
}

#[test]
fn what_is_there_stays_as_it_is() {
    let mut lent = chained_base();
    lent.done(&import(2, 1, "box", "Case", ""));
    lent.done(&set_modes(2, "case", 1, 0));
    assert!(are_rows(&lent, 2, &[("", 0), ("", 1), ("Case", 2)]));
    // Shared ancestors come with the first import, and above one that is there nothing is missing.
    lent.done(&import(2, 1, "cap", "", ""));
    assert!(are_rows(&lent, 2, &[("", 0), ("", 1), ("", 3), ("cap", 4), ("Case", 2)]));
    assert_eq!(lent.call(&modes(&[2], 2)), [0, 1, 0, 0]);
    // A type may have the name that one above it has in the source; a name that is taken lets nothing come.
    lent.done(&import(3, 1, "box", "Object", ""));
    assert!(are_rows(&lent, 3, &[("", 0), ("", 1), ("Object", 2)]));
    assert_eq!(lent.number(&import(3, 1, "cap", "objecT", "")), 11);
    assert!(are_rows(&lent, 3, &[("", 0), ("", 1), ("Object", 2)]));
    lent.done(&import(3, 1, "cap", "unit", ""));
    assert!(are_rows(&lent, 3, &[("", 0), ("", 1), ("", 3), ("Object", 2), ("unit", 4)]));
    assert_eq!(lent.done(&find(&[3], "unit")), CAP);
}

/// As many places as it takes, and one less; what is there takes none.
#[test]
fn room_for_ancestors() {
    for (free, there, number) in
        [(4, "object", 0), (3, "object", 14), (3, "unit", 0), (2, "unit", 14), (1, "unit", 14)]
    {
        // Four types and what is there, with type 0, take so many.
        let mut lent = full_presences(free + 5 + usize::from(there == "unit"));
        lent.done(&new_sds("last"));
        for call in [
            new_object(1, "unit", "object"),
            new_object(1, "box", "unit"),
            new_object(1, "lid", "box"),
            new_object(1, "cap", "lid"),
            import(7, 1, there, "", ""),
        ] {
            lent.done(&call);
        }
        assert_eq!(Schema::PRESENCES - from_bytes(&lent.0).unwrap().presence_count(), free);
        assert_eq!(lent.number(&import(7, 1, "cap", there, "")), 11);
        assert_eq!(lent.number(&import(7, 1, "cap", "", "")), number, "{free} {there}");
        assert_eq!(lent.number(&import(7, 1, "only_here", "", "")), if number == 0 { 14 } else { 0 });
    }
}

#[test]
fn named_by_its_number() {
    let mut lent = chained_base();
    lent.done(&import(2, 1, "cap", "", ""));
    let before = lent.0.clone();
    for (number, call) in [
        (4, rename_number(2, LID, "")),
        (4, rename_number(2, LID, "abcdefghijklmnopq")),
        (6, rename_number(2, 5, "lid")),
        (6, rename_number(3, LID, "lid")),
        (11, rename_number(2, LID, "cap")),
        (11, rename_number(2, LID, "CAP")),
    ] {
        assert_eq!(lent.number(&call), number, "{call:?}");
    }
    assert!(lent.0 == before);
    assert_eq!(lent.call(&rename_number(2, LID, "Lid")), [0; 4]);
    assert!(are_rows(&lent, 2, &[("", 0), ("", 1), ("", 2), ("cap", 4), ("Lid", 3)]));
    assert_eq!(lent.done(&find(&[2], "LID")), LID);
    lent.done(&set_modes(2, "lid", 3, 4));
    // Its own name, the spelling alone, and another.
    let before = lent.0.clone();
    assert_eq!(lent.call(&rename_number(2, LID, "Lid")), [0; 4]);
    assert!(lent.0 == before);
    lent.done(&rename_number(2, LID, "LID"));
    assert!(are_rows(&lent, 2, &[("", 0), ("", 1), ("", 2), ("cap", 4), ("LID", 3)]));
    lent.done(&rename_number(2, LID, "abcdefghijklmnop"));
    assert!(are_rows(&lent, 2, &[("", 0), ("", 1), ("", 2), ("abcdefghijklmnop", 3), ("cap", 4)]));
    assert_eq!(lent.call(&modes(&[2], LID)), [0, 3, 4, 0]);
    // Names are unique among those that there are.
    lent.done(&new_attribute(2, "unit", 0));
    assert_eq!(lent.number(&rename_number(2, 1, "unit")), 11);
    lent.done(&rename_number(2, 1, "object"));
    assert_eq!(lent.number(&rename_number(2, 0, "object")), 11);
    assert_eq!(lent.done(&find(&[2], "object")), 1);
}

#[test]
fn any_kind_by_its_number() {
    let mut lent = some_base();
    for (ty, new_name) in [(0, "a"), (SIZE, "b"), (4, "c"), (HAS, "d"), (6, "e")] {
        lent.done(&rename_number(1, ty, new_name));
        assert_eq!(lent.done(&find(&[1], new_name)), ty);
    }
    lent.done(&unapply_link(1, "d", "unit"));
    lent.done(&import(2, 1, "d", "", ""));
    lent.done(&set_modes(2, "d", 1, 2));
    lent.done(&rename_number(2, 6, "of"));
    assert_eq!(lent.call(&modes(&[2], 6)), [0, 1, 2, 0]);
    // A pair goes together, by either number; an SDS that has it still keeps it.
    for (sds, ty) in [(1, 6), (2, HAS)] {
        assert_eq!(lent.call(&remove_number(sds, ty)), [0, ty, 0, 0]);
        assert_eq!([lent.number(&name(sds, HAS)), lent.number(&name(sds, 6))], [6, 6]);
    }
    assert_eq!(lent.call(&remove_number(1, 4)), [0, 4, 0, 0]);
    assert_eq!(lent.call(&new_pair(1, "has", "of", 0, 3)), [0, 4, 5, 0]);
}

#[test]
fn ancestors_left_over() {
    let mut lent = chained_base();
    lent.done(&import(2, 1, "cap", "", ""));
    let calls = [
        (remove_type(2, "cap"), [0, CAP]),
        (remove_sds(2), [12, 0]),
        (remove_number(2, 0), [16, 1]),
        (remove_number(2, 1), [16, 2]),
        (remove_number(2, 2), [16, LID]),
        (remove_number(2, CAP), [6, 0]),
        (remove_number(2, LID), [0, LID]),
        (remove_number(2, LID), [6, 0]),
        // A nameless child holds one that has a name too.
        (rename_number(2, 1, "unit"), DONE),
        (remove_type(2, "unit"), [16, 2]),
        (remove_number(2, 1), [16, 2]),
        (remove_number(2, 2), [0, 2]),
        (remove_sds(2), [12, 0]),
        (remove_type(2, "unit"), [0, 1]),
        (remove_sds(2), [12, 0]),
        (remove_number(2, 0), DONE),
        (remove_sds(2), DONE),
        // Whatever is nowhere is gone, and its number free.
        (new_sds("two"), [0, 2]),
        (import(2, 1, "cap", "", ""), [0, CAP]),
        (remove_type(1, "cap"), [0, CAP]),
        (remove_type(1, "lid"), [0, LID]),
        (remove_number(2, LID), [16, CAP]),
        (remove_number(2, CAP), [0, CAP]),
        (depth(&[2], LID), [0, 3]),
        (remove_number(2, LID), [0, LID]),
        (new_attribute(1, "new", 0), [0, LID]),
    ];
    answer_in_turn(lent, &calls);
}

/// In a base that is lent nameless types have any modes, applications and ends.
#[test]
fn nameless_types_in_a_lent_base() {
    let mut s = from_bytes(&scanned_base().0).unwrap();
    let here = s.sdss.get_mut(&1).unwrap();
    here.set_modes(&[1], Modes { usage: 5, definition: 0 });
    [1, 2, 4].into_iter().for_each(|ty| take_name(here, ty));
    let mut lent = Lent(to_bytes(&s));
    assert!(is_sound(&lent.0));
    assert_eq!(lent.call(&modes(&[1], 1)), [0, 5, 0, 0]);
    assert_eq!(lent.call(&modes(&[1, 2], 1)), [0, 31, 31, 0]);
    assert_eq!(lent.list(&scan_object(&[1], 4, 5)).1, [5, 6]);
    assert_eq!(lent.list(&scan_object(&[1], 2, 6)).1, [7]);
    assert_eq!(lent.list(&scan_object(&[1], 4, 7)).1, [7, 9]);
    assert_eq!(lent.list(&scan_link(&[1], 9, 3)).1, [1, 2, 3, 4]);
    assert_eq!(lent.list(&profile(&[1], 4)), ([4, 2, 2], vec![0, 1, 2, 3, 5, 6, 7, 9]));
    let calls = [
        (remove_type(1, "five"), [17, 4]),
        (remove_number(1, 6), [17, 1]),
        (remove_type(1, "seven"), [18, 2]),
        (remove_number(1, 8), [18, 2]),
        (remove_type(1, "right"), [16, 4]),
        (remove_type(1, "object"), [16, 1]),
        (remove_number(1, 4), [17, 5]),
        (remove_number(1, 2), [16, 4]),
        // What is applied to one without a name stays, by any name but its number's.
        (unapply(1, "five", "low"), [6, 0]),
        (unapply_link(1, "nine", "low"), [6, 0]),
        (rename_number(1, 4, "low"), DONE),
        (unapply(1, "five", "low"), DONE),
        (remove_number(1, 4), [18, 9]),
        (unapply_link(1, "nine", "low"), DONE),
        (remove_number(1, 4), [0, 4]),
        (remove_number(1, 2), [18, 7]),
        (rename_number(1, 1, "top"), DONE),
    ];
    answer_in_turn(Lent(lent.0.clone()), &calls);
    lent.done(&rename_number(1, 1, "top"));
    assert_eq!(lent.call(&modes(&[1], 1)), [0, 5, 0, 0]);
}

#[test]
fn traits_of_nameless_types() {
    let (mut lent, mut since) = (chained_base(), Since::default());
    let mut has_traits = |call: Call, expected: &[&str]| {
        let before = from_bytes(&lent.0).unwrap();
        let mut traits = Traits::of(&call);
        nameless::add_traits(&mut traits, &before, &since, &call);
        let answer = lent.call(&call);
        if answer[0] == 0 && !call.asks() {
            since.keep(&nameless::nameless(&before), &from_bytes(&lent.0).unwrap());
        }
        let name = CALLS[call.index()].name;
        let expected: Vec<String> = expected.iter().map(|what| format!("{name} {what}")).collect();
        assert_eq!(traits.answered(answer).collect::<Vec<_>>(), expected, "{call:?}");
    };
    let named = "0, an ancestor with a name in the source";
    has_traits(set_modes(1, "unit", 1, 1), &[]);
    let one = ["0, brings 2", "0, type 0", named, "0, an ancestor of fewer modes", "0, into an empty SDS"];
    has_traits(import(2, 1, "box", "", ""), &one);
    let more = ["0, brings 1", "0, an ancestor there by name", "0, an ancestor there, nameless"];
    let more = [&more[..], &["0, an ancestor there, brought before", named]].concat();
    has_traits(import(2, 1, "cap", "", ""), &more);
    has_traits(import(2, 1, "lid", "CAP", ""), &["9, nameless there", "9, nameless there, before 11"]);
    has_traits(import(3, 2, "lid", "", ""), &["6, nameless in the source"]);
    has_traits(find(&[2], "lid"), &["6, its name"]);
    has_traits(find(&[2], ""), &["4, blank"]);
    has_traits(find(&[2, 1], "unit"), &["0, nameless in one listed before"]);
    has_traits(modes(&[2], 1), &["0, nameless", "0, brought"]);
    has_traits(modes(&[1, 2], 1), &["0, nameless and named"]);
    has_traits(name(2, 0), &["0, nameless"]);
    has_traits(name(2, 2), &["0, named, behind nameless rows"]);
    has_traits(remove_type(2, "box"), &["16, by a nameless type"]);
    has_traits(remove_number(2, 2), &["16, of a named type", "16, by a nameless type"]);
    has_traits(remove_sds(2), &["12, the lowest nameless"]);
    has_traits(remove_number(2, 256 + 1), &["6", "6, 128 or more", "6, by its high bytes alone"]);
    has_traits(rename_number(2, LID, ""), &["4", "4, blank"]);
    has_traits(rename_number(2, LID, "BOX"), &["11, in another spelling", "11, a nameless type"]);
    has_traits(new_attribute(2, "unit", 0), &["0, its name"]);
    let to_its_name = ["0, a nameless type", "0, a nameless type, brought", "0, a nameless type to its name"];
    has_traits(rename_number(2, LID, "lid"), &to_its_name);
    has_traits(find(&[2], "lid"), &["0, named by its number"]);
    has_traits(depth(&[2], 1), &["0, of a nameless type"]);
    has_traits(scan_object(&[2], 0, 1), &[]);
    has_traits(rename_number(2, LID, "lid"), &["0, an object type", "0, to its own name"]);
    has_traits(remove_number(2, CAP), &["0, an object type"]);
}

// The exchange file.

#[test]
fn file_of_a_base() {
    let mut lent = Lent::fresh();
    let name = |name: &str| [name.as_bytes(), &[0; 16][name.len()..]].concat();
    let fresh = [
        &b"\x01\0\0"[..],
        &name("system"),
        b"\x01\0\0\x01\0\0\0\0\x01\0\0\0",
        &name("object"),
        &[31, 31, 0, 0, 0, 0],
    ];
    let fresh = fresh.concat();
    assert_eq!(lent.with_output(&Call::WriteFile, 55), ([0, 53, 0, 0], [&fresh[..], &[0xee; 2]].concat()));
    assert_eq!(lent.with_output(&Call::WriteFile, 53), ([0, 53, 0, 0], fresh.clone()));
    assert_eq!(lent.with_output(&Call::WriteFile, 52).0, [15, 0, 0, 0]);
    // Over any bytes.
    for base in [vec![0; LENGTH], vec![7; LENGTH], some_base().0] {
        let mut lent = Lent(base);
        assert_eq!(lent.call(&read_file(&fresh)), [0; 4]);
        assert!(lent.0 == Lent::fresh().0);
    }
    assert_eq!(Lent(vec![0; LENGTH + 1]).call(&read_file(&fresh)), [1, 0, 0, 0]);
    assert_eq!(Lent(Vec::new()).call(&read_file(&[])), [1, 0, 0, 0]);

    let entries = entries(&from_bytes(&some_base().0).unwrap());
    assert_eq!(entries[1][5..], [[5, 3, 0, 6], [6, 3, 3, 5]]);
    assert_eq!(entries[2], [[1, 0], [2, 1]]);
    // By type, and not as the rows stand.
    assert!(entries[3].iter().map(|entry| entry[1]).eq([0, 0, 1, 2, 3, 4, 5, 6, 0, 3]));
    assert_eq!(entries[3][9], [&[2, 3][..], &name("unit"), &[31, 31]].concat());
    assert_eq!(
        (&entries[4][..], &entries[5][..]),
        (&[vec![1, 1, 3]][..], &[vec![1, 5, 0, 1], vec![1, 6, 1, 1]][..])
    );
}

/// Nameless types, in any order of numbers, with any modes: what is written is read back, byte for byte.
#[test]
fn written_and_read_back() {
    let mut random = Random::new(1);
    for draw in [nameless::draw, spellings::draw, modes::draw, removals::draw, longest] {
        for s in (0..30).map(|_| draw(&mut random)) {
            let file = to_file(&s);
            assert_eq!(file::read(&file), Ok(s));
            assert!(FILE.parted(&file).is_some() && file.len() <= LONGEST);
        }
    }
}

/// 126 object types have the most parents that leave an attribute type and a link type.
#[test]
fn no_file_is_longer() {
    let sections =
        |counts: [usize; 6]| -> usize { counts.into_iter().zip(WIDTHS).map(|(n, width)| COUNT + n * width).sum() };
    assert_eq!(sections(ROOM), MOST);
    // The first after type 0 can have one parent, the next two, and so on.
    let parents = |objects: usize| (0..objects).map(|above| above.min(Schema::PARENTS)).sum::<usize>();
    let mut most = 0;
    for types in 1..=Schema::TYPES {
        for objects in 1..=types {
            // Without others there is nothing to apply, and nothing that has ends.
            let [applications, ends] = match types - objects {
                0 => [[0, 0]; 1].as_slice(),
                1 => &[[ROOM[4], 0], [0, ROOM[5]]],
                _ => &[[ROOM[4], ROOM[5]]],
            }
            .iter()
            .copied()
            .max_by_key(|[applications, ends]| applications * WIDTHS[4] + ends * WIDTHS[5])
            .unwrap();
            most = most.max(sections([ROOM[0], types, parents(objects), ROOM[3], applications, ends]));
        }
    }
    assert_eq!(most, LONGEST);
    let mut random = Random::new(1);
    let s = longest(&mut random);
    assert!(is_sound(&to_bytes(&s)) && to_file(&s).len() == LONGEST);
}

/// Every well-formed file of the form.
fn all_files(form: &Form) -> Vec<Vec<u8>> {
    let mut files = vec![Vec::new()];
    for &width in form.widths {
        let digits = form.digits as usize;
        let string = |n: usize| (0..width).rev().map(move |place| (n / digits.pow(place as u32) % digits) as u8);
        let strings = digits.pow(width as u32);
        let mut sections = Vec::new();
        for chosen in 0..1_usize << strings {
            let count = chosen.count_ones() as usize;
            if count < digits * digits {
                let entries = (0..strings).filter(|n| chosen >> n & 1 == 1).flat_map(string);
                sections
                    .push([(count % digits) as u8, (count / digits) as u8].into_iter().chain(entries).collect());
            }
        }
        files = files
            .iter()
            .flat_map(|file| sections.iter().map(move |more: &Vec<u8>| [&file[..], more].concat()))
            .collect();
    }
    files
}

/// Among all files, the longest start that the bytes share with one; none where they are one.
fn longest_start_of(files: &BTreeSet<Vec<u8>>, bytes: &[u8]) -> Option<usize> {
    // The files that share the most stand right before and right behind.
    let near = files.range(..bytes.to_vec()).next_back().into_iter().chain(files.range(bytes.to_vec()..).next());
    let shared = |file: &Vec<u8>| file.iter().zip(bytes).take_while(|(one, other)| one == other).count();
    (!files.contains(bytes)).then(|| near.map(shared).max().unwrap())
}

/// The search over what may follow, held to a list of all files: with so few strings of a width that a count is nearly all
/// of them, and less.
#[test]
fn longest_start_by_all_files() {
    let forms: [(u128, &[usize]); 6] =
        [(2, &[1, 2]), (2, &[3]), (2, &[2, 1, 2]), (3, &[1, 2]), (3, &[2]), (4, &[2])];
    for (digits, widths) in forms {
        let form = Form { digits, widths };
        let files: BTreeSet<Vec<u8>> = all_files(&form).into_iter().collect();
        let check = |bytes: &[u8]| {
            let start = longest_start_of(&files, bytes);
            assert_eq!(form.longest_start(bytes), start, "{digits} {widths:?} {bytes:?}");
            assert_eq!(form.parted(bytes).is_some(), start.is_none(), "{digits} {widths:?} {bytes:?}");
        };
        // All short strings, and files with a digit changed, cut or longer.
        for length in 0..=if digits == 2 { 12 } else { 7 } {
            for n in 0..(digits as usize).pow(length) {
                check(
                    &(0..length)
                        .map(|place| (n / (digits as usize).pow(place) % digits as usize) as u8)
                        .collect::<Vec<_>>(),
                );
            }
        }
        let mut random = Random::new(1);
        let files: Vec<&Vec<u8>> = files.iter().collect();
        for _ in 0..20_000 {
            let mut bytes = files[random.below(files.len())].clone();
            for _ in 0..=random.below(2) {
                let at = random.below(bytes.len());
                match random.below(4) {
                    0 => bytes.truncate(at + 1),
                    1 => bytes.push(random.below(digits as usize) as u8),
                    _ => bytes[at] = random.below(digits as usize) as u8,
                }
            }
            check(&bytes);
        }
    }
}

/// Whether some well-formed file begins so, by making one: each entry that is still open or to come is the least that it can
/// be.
fn can_be_finished(bytes: &[u8]) -> bool {
    let mut rest = bytes;
    for width in WIDTHS {
        let Some((count, behind)) = rest.split_at_checked(COUNT) else { return true };
        let mut before: Option<Vec<u8>> = None;
        rest = behind;
        for _ in 0..u16::from_le_bytes([count[0], count[1]]) {
            let given;
            (given, rest) = rest.split_at(width.min(rest.len()));
            let mut entry = [given, &vec![0; width - given.len()]].concat();
            if before.as_ref().is_some_and(|before| entry <= *before) {
                // The string right above, if it begins as is given.
                entry = before.clone().unwrap();
                let Some(raised) = entry.iter().rposition(|&byte| byte < 255) else { return false };
                entry[raised] += 1;
                entry[raised + 1..].fill(0);
            }
            if !entry.starts_with(given) {
                return false;
            }
            before = Some(entry);
        }
        if rest.is_empty() {
            // The sections behind can be empty.
            return true;
        }
    }
    rest.is_empty()
}

/// The same at the widths that there are, with counts up to 65,535.
#[test]
fn longest_start_by_finishing() {
    let mut random = Random::new(1);
    let written = Written::new(from_bytes(&some_base().0).unwrap());
    let mut told = BTreeSet::new();
    for _ in 0..3000 {
        let file = files::any(&mut random, &written).file;
        let start = FILE.longest_start(&file).unwrap_or(file.len());
        assert!(can_be_finished(&file[..start]), "{file:?}");
        assert!(start == file.len() || !can_be_finished(&file[..=start]), "{file:?}");
        told.insert(start);
    }
    assert!(told.len() > 300);
}

/// What a reader answers that goes wrong in one place.
fn read_wrongly(wrong: &str, file: &[u8]) -> [usize; 2] {
    let numbers = |fault| match fault {
        Fault::Malformed { start } => [20, start],
        Fault::NotWritten => [21, 0],
    };
    let right = file::read(file).map_or_else(numbers, |_| [0, 0]);
    let mut at = 0;
    for width in WIDTHS {
        let Some(count) = file.get(at..at + COUNT) else { return right };
        let count = usize::from(u16::from_le_bytes([count[0], count[1]]));
        at += COUNT;
        for number in 0..count {
            let Some(entry) = file.get(at..at + width) else { return right };
            let before = (number > 0).then(|| &file[at - width..at]);
            let to_come = count - number - 1;
            let last = usize::from(u16::from_be_bytes([entry[width - 2], entry[width - 1]]));
            let is_high = entry[..width - 2].iter().all(|&byte| byte == 255);
            let too_few = is_high && 65_535 - last < to_come;
            let is_told = right[0] == 20 && (at..at + width).contains(&right[1]);
            match wrong {
                "at the end of an entry" if is_told => return [20, at + width],
                "at the beginning of an entry" if is_told => return [20, at],
                "the same let pass" if before == Some(entry) => return [21, 0],
                "none above left out of account" if too_few => return [20, file.len()],
                "one too few let pass" if is_high && 65_535 - last + 1 == to_come => return [20, file.len()],
                "just enough refused" if is_high && 65_535 - last == to_come && to_come > 0 => {
                    return [20, at + width - 1]
                }
                "at the last byte always" if is_told => return [20, at + width - 1],
                "falling let pass" if before.is_some_and(|before| before > entry) => return [21, 0],
                _ => {}
            }
            at += width;
        }
    }
    let is_sound_before = |end: usize| file::read(&file[..end]) != Err(Fault::NotWritten);
    match wrong {
        "bytes behind let pass" if at < file.len() && is_sound_before(at) => [0, 0],
        "21 before 20" if at < file.len() && !is_sound_before(at) => [21, 0],
        "told by the length" if at < file.len() => [20, file.len()],
        _ => right,
    }
}

/// Each reader that goes wrong in one place is told from the keeper by the files that are made.
#[test]
fn wrong_readers_differ() {
    let wrongs = [
        "at the end of an entry",
        "at the beginning of an entry",
        "at the last byte always",
        "the same let pass",
        "falling let pass",
        "none above left out of account",
        "one too few let pass",
        "just enough refused",
        "bytes behind let pass",
        "told by the length",
        "21 before 20",
    ];
    let mut random = Random::new(1);
    let written = Written::new(from_bytes(&some_base().0).unwrap());
    let made: Vec<Vec<u8>> = (0..4000).map(|_| files::any(&mut random, &written).file).collect();
    for wrong in wrongs {
        let differ = made.iter().filter(|file| read_wrongly(wrong, file) != read_wrongly("", file)).count();
        assert!(differ > 5, "{wrong} {differ}");
    }
    assert!(made.iter().all(|file| read_wrongly("", file)[0] < 22));
}

/// 20 is told to the end of the bytes before 21, and neither changes anything.
#[test]
fn malformed_before_not_sound() {
    let mut lent = some_base();
    let mut entries = entries(&from_bytes(&lent.0).unwrap());
    entries[0][1][1..].fill(b'%');
    let mut file = in_bytes(&entries);
    assert_eq!(lent.call(&read_file(&file)), [21, 0, 0, 0]);
    assert_eq!(lent.call(&read_file(&file[..file.len() - 1])), [20, file.len() - 1, 0, 0]);
    file.push(0);
    assert_eq!(lent.call(&read_file(&file)), [20, file.len() - 1, 0, 0]);
    assert!(lent.0 == some_base().0);
    // Bytes that are no base stay too: nothing is written before all is decided.
    for file in [&file[..], &file[..file.len() - 1], &[0; 12], &[]] {
        let mut lent = Lent(vec![7; LENGTH]);
        assert!([20, 21].contains(&lent.number(&read_file(file))) && lent.0 == vec![7; LENGTH]);
    }
}

// The base in bytes.

#[test]
fn layout() {
    let starts = [SDSS, TYPES, PRESENCES, APPLICATIONS, ENDS].map(|table| table.start);
    assert_eq!((starts, LENGTH), ([0, 256, 1280, 11520, 12288], 14336));
    let mut fresh = vec![0; LENGTH];
    fresh[..6].copy_from_slice(b"system");
    fresh[256] = 1;
    fresh[1281..1287].copy_from_slice(b"object");
    fresh[1298..1300].copy_from_slice(&[31, 31]);
    assert!(Lent::fresh().0 == fresh);

    let base = some_base().0;
    assert_eq!(base[16..32], *b"one\0\0\0\0\0\0\0\0\0\0\0\0\0");
    let types: Vec<&[u8]> = TYPES.rows(&base).skip(1).take(7).collect();
    assert_eq!(types[0], [1, 0, 0, 1, 0, 0, 0, 0]);
    assert_eq!(types[1], [1, 0, 0, 1, 1, 0, 0, 0]);
    assert_eq!(types[2], [2, 1, 0, 0, 0, 0, 0, 0]);
    assert_eq!(types[3], [3, 4, 0, 0, 0, 0, 0, 0]);
    assert_eq!(types[4], [3, 0, 6, 0, 0, 0, 0, 0]);
    assert_eq!(types[5], [3, 3, 5, 0, 0, 0, 0, 0]);
    assert_eq!(types[6], [0; 8]);
    let presences: Vec<(u8, &[u8], u8)> =
        PRESENCES.rows(&base).take(11).map(|row| (row[0], row[1..17].trim_ascii_end(), row[17])).collect();
    let names = presences.iter().map(|(_, name, _)| name.split(|&byte| byte == 0).next().unwrap());
    let expected = ["object", "has", "object", "of", "part", "sees", "size", "unit", "thing", "unit", ""];
    assert!(names.eq(expected.map(str::as_bytes)));
    assert!(presences.iter().map(|row| row.0).eq([0, 1, 1, 1, 1, 1, 1, 1, 2, 2, 0]));
    assert!(presences.iter().map(|row| row.2).eq([0, 5, 0, 6, 2, 4, 3, 1, 0, 3, 0]));
    assert!(PRESENCES.rows(&base).map(|row| &row[18..]).eq([[31; 2]; 10].into_iter().chain([[0; 2]; 502])));
    assert!(APPLICATIONS.rows(&base).take(2).eq([&[1, 1, 3][..], &[0, 0, 0]]));
    assert!(ENDS.rows(&base).take(3).eq([&[1, 5, 0, 1][..], &[1, 6, 1, 1], &[0, 0, 0, 0]]));
}

/// A schema with one fault, laid out as it should be, is refused; `some_base` has none.
#[test]
fn each_sentence_of_soundness() {
    let is_sound_after = |spoil: fn(&mut Schema)| {
        let mut schema = from_bytes(&some_base().0).expect("a sound base");
        spoil(&mut schema);
        is_sound(&to_bytes(&schema))
    };
    fn one(schema: &mut Schema) -> &mut Sds {
        schema.sdss.get_mut(&1).unwrap()
    }
    fn object(parents: &[usize]) -> Type {
        Type::Object { parents: parents.iter().copied().collect() }
    }
    fn link(category: usize, reverse: usize) -> Type {
        Type::Link { category, reverse: Some(reverse) }
    }
    assert!(is_sound_after(|_| {}));
    // A name in another spelling is no fault, unless it is that of another or in SDS 0.
    assert!(is_sound_after(|s| one(s).name = Name::new("ONE")));
    assert!(is_sound_after(|s| {
        one(s).named.remove(&Name::new("part"));
        one(s).named.insert(Name::new("paRt"), Presence::of(PART));
    }));
    // Other modes are none, where a pair has the same; in each SDS they may be others.
    assert!(is_sound_after(|s| one(s).set_modes(&[0, UNIT, SIZE, 4], Modes::NONE)));
    assert!(is_sound_after(|s| one(s).set_modes(&[HAS, 6], Modes { usage: 0, definition: 31 })));
    // An object type without a name is none, with an application, an end, a child and any modes.
    for ty in [0, UNIT, PART] {
        let mut schema = from_bytes(&some_base().0).unwrap();
        take_name(one(&mut schema), ty);
        assert!(is_sound(&to_bytes(&schema)));
        one(&mut schema).set_modes(&[ty], Modes { usage: 0, definition: 17 });
        assert!(is_sound(&to_bytes(&schema)));
    }
    assert!(is_sound_after(|s| [0, UNIT, PART].into_iter().for_each(|ty| take_name(one(s), ty))));
    assert!(is_sound_after(|s| s.sdss.get_mut(&3).unwrap().nameless = [(0, Modes::NONE), (1, Modes::ALL)].into()));
    let faults: [fn(&mut Schema); 70] = [
        |s| take_name(one(s), SIZE),
        |s| take_name(one(s), 4),
        |s| take_name(one(s), HAS),
        |s| [HAS, 6].into_iter().for_each(|ty| take_name(one(s), ty)),
        |s| take_name(s.sdss.get_mut(&0).unwrap(), 0),
        |s| _ = s.sdss.get_mut(&0).unwrap().nameless.insert(UNIT, Modes::ALL),
        |s| _ = s.sdss.get_mut(&0).unwrap().nameless.insert(0, Modes::ALL),
        |s| _ = one(s).nameless.insert(UNIT, Modes::ALL),
        |s| _ = one(s).nameless.insert(7, Modes::ALL),
        |s| _ = one(s).nameless.insert(128, Modes::ALL),
        |s| _ = s.sdss.get_mut(&2).unwrap().nameless.insert(PART, Modes::ALL),
        |s| _ = s.sdss.get_mut(&2).unwrap().nameless.insert(UNIT, Modes { usage: 32, ..Modes::ALL }),
        |s| s.sdss.get_mut(&3).unwrap().nameless = [(1, Modes::ALL)].into(),
        |s| s.sdss.get_mut(&0).unwrap().set_modes(&[0], Modes { usage: 30, ..Modes::ALL }),
        |s| s.sdss.get_mut(&0).unwrap().set_modes(&[0], Modes { definition: 15, ..Modes::ALL }),
        |s| one(s).set_modes(&[UNIT], Modes { usage: 32, ..Modes::ALL }),
        |s| one(s).set_modes(&[UNIT], Modes { definition: 32, ..Modes::ALL }),
        |s| one(s).set_modes(&[HAS, 6], Modes { usage: 255, ..Modes::ALL }),
        |s| one(s).set_modes(&[HAS], Modes { usage: 30, ..Modes::ALL }),
        |s| one(s).set_modes(&[HAS], Modes { definition: 30, ..Modes::ALL }),
        |s| one(s).set_modes(&[6], Modes { usage: 15, ..Modes::ALL }),
        |s| one(s).set_modes(&[6], Modes { definition: 0, ..Modes::ALL }),
        |s| one(s).name = Name::new("two"),
        |s| one(s).name = Name::new("twO"),
        |s| one(s).name = Name::new("System"),
        |s| {
            one(s).named.remove(&Name::new("part"));
            one(s).named.insert(Name::new("Unit"), Presence::of(PART));
        },
        |s| {
            one(s).named.remove(&Name::new("part"));
            one(s).named.insert(Name::new("uniT"), Presence::of(PART));
        },
        |s| s.sdss.get_mut(&0).unwrap().name = Name::new("System"),
        |s| s.sdss.get_mut(&0).unwrap().named = [(Name::new("Object"), Presence::of(0))].into(),
        |s| one(s).name = Name::new("o ne"),
        |s| {
            one(s).named.remove(&Name::new("part"));
            one(s).named.insert(Name::new("pa rt"), Presence::of(PART));
        },
        |s| _ = one(s).named.insert(Name::new("again"), Presence::of(SIZE)),
        |s| _ = one(s).named.insert(Name::new("unused"), Presence::of(7)),
        |s| _ = one(s).named.insert(Name::new("unused"), Presence::of(128)),
        |s| _ = s.sdss.get_mut(&0).unwrap().named.insert(Name::new("size"), Presence::of(SIZE)),
        |s| s.sdss.get_mut(&0).unwrap().name = Name::new("systems"),
        |s| s.sdss.get_mut(&0).unwrap().named = [(Name::new("thing"), Presence::of(0))].into(),
        |s| _ = s.sdss.remove(&0),
        |s| _ = s.types.insert(0, Type::Attribute { value_kind: 0 }),
        |s| _ = s.types.insert(0, object(&[UNIT])),
        |s| _ = s.types.insert(UNIT, object(&[])),
        |s| _ = s.types.insert(UNIT, object(&[UNIT])),
        |s| _ = s.types.insert(UNIT, object(&[0, PART])),
        |s| _ = s.types.insert(UNIT, object(&[0, SIZE])),
        |s| _ = s.types.insert(UNIT, object(&[0, HAS])),
        |s| _ = s.types.insert(UNIT, object(&[0, 7])),
        |s| _ = s.types.insert(UNIT, object(&[0, 200])),
        |s| _ = s.types.insert(7, Type::Attribute { value_kind: 0 }),
        |s| _ = s.types.insert(SIZE, Type::Attribute { value_kind: 6 }),
        |s| _ = s.types.insert(HAS, link(3, 6)),
        |s| _ = s.types.insert(HAS, link(4, 6)),
        |s| _ = s.types.insert(HAS, link(5, 6)),
        |s| _ = s.types.insert(HAS, link(0, HAS)),
        |s| _ = s.types.insert(HAS, link(0, 4)),
        |s| _ = s.types.insert(HAS, link(0, UNIT)),
        |s| _ = s.types.insert(HAS, Type::Link { category: 0, reverse: None }),
        |s| _ = s.types.insert(4, Type::Link { category: 2, reverse: None }),
        |s| _ = s.types.insert(4, link(2, HAS)),
        |s| _ = one(s).named.remove(&Name::new("unit")),
        |s| _ = one(s).named.remove(&Name::new("of")),
        |s| _ = one(s).named.remove(&Name::new("size")),
        |s| _ = one(s).applications.insert(Application { to: SIZE, attribute: SIZE }),
        |s| _ = one(s).applications.insert(Application { to: UNIT, attribute: PART }),
        |s| _ = s.sdss.get_mut(&2).unwrap().applications.insert(Application { to: UNIT, attribute: SIZE }),
        |s| _ = one(s).ends.insert(End { link: 4, side: Side::Origin, object: SIZE }),
        |s| _ = one(s).ends.insert(End { link: UNIT, side: Side::Origin, object: UNIT }),
        |s| _ = s.sdss.get_mut(&2).unwrap().ends.insert(End { link: 4, side: Side::Origin, object: 0 }),
        |s| _ = one(s).ends.pop_first(),
        |s| _ = one(s).ends.pop_last(),
        |s| _ = one(s).ends.insert(End { link: HAS, side: Side::Destination, object: UNIT }),
    ];
    for (number, fault) in faults.into_iter().enumerate() {
        assert!(!is_sound_after(fault), "fault {number}");
    }
}

#[test]
fn each_rule_of_the_layout() {
    let spoilt = |at: usize, bytes: &[u8]| {
        let mut base = some_base().0;
        base[at..][..bytes.len()].copy_from_slice(bytes);
        is_sound(&base)
    };
    let presence = |row: usize| PRESENCES.start + row * PRESENCES.width;
    assert!(spoilt(0, b"system"));
    // Padding of a name, and a name of no SDS.
    assert!(!spoilt(16, b"one\0a"));
    assert!(!spoilt(15 * 16 + 1, b"a"));
    assert!(!spoilt(presence(1) + 1, b"has\0a"));
    // Fields that a kind lacks, and an unused type.
    for (row, field) in [(1, 1), (1, 2), (1, 5), (3, 2), (3, 3), (3, 4), (5, 3), (5, 7), (7, 1), (127, 7)] {
        assert!(!spoilt(TYPES.start + row * TYPES.width + field, &[1]), "{row} {field}");
    }
    // Parents that are not rising; more than there is room for.
    assert!(spoilt(TYPES.start + 2 * TYPES.width + 3, &[2, 0, 1]));
    assert!(!spoilt(TYPES.start + 2 * TYPES.width + 3, &[2, 1, 0]));
    assert!(!spoilt(TYPES.start + 2 * TYPES.width + 3, &[2, 1, 1]));
    assert!(!spoilt(TYPES.start + 2 * TYPES.width + 3, &[5, 0, 1, 3, 4]));
    assert!(!spoilt(TYPES.start, &[4]));
    // Rows that are not rising, and rows behind a gap.
    assert!(!spoilt(presence(1) + 1, b"p\0\0"));
    assert!(!spoilt(presence(11) + 17, &[1]));
    // A name taken away where the row stands: of the first of an SDS, of another, and of other kinds.
    let blank = [0; 16];
    let mut lent = chained_base();
    lent.done(&import(2, 1, "cap", "", ""));
    let spoilt_in = |at: usize, bytes: &[u8]| {
        let mut base = lent.0.clone();
        base[at..][..bytes.len()].copy_from_slice(bytes);
        is_sound(&base)
    };
    // Rows 1 and 2 are box and cap, 7 to 11 types 0 to 3 without a name, and cap.
    assert!(spoilt_in(presence(1) + 1, &blank) && !spoilt_in(presence(2) + 1, &blank));
    assert!(spoilt_in(presence(7) + 1, &blank) && spoilt_in(presence(11) + 1, &blank));
    assert!(!spoilt_in(presence(1) + 1, &blank[..1]) && !spoilt_in(presence(1) + 1, &blank[..2]));
    assert!(
        !spoilt(presence(1) + 1, &blank) && !spoilt(presence(2) + 1, &blank) && !spoilt(presence(5) + 1, &blank)
    );
    assert!(!spoilt_in(presence(0) + 1, &blank));
    // By type, each once; a name, and no byte but that; behind one that has a name none comes without.
    assert!(!spoilt_in(presence(8) + 17, &[2]) && !spoilt_in(presence(8) + 17, &[0]));
    assert!(!spoilt_in(presence(8) + 17, &[2, 31, 31, 2, 0, 0]));
    for at in 2..=16 {
        assert!(!spoilt_in(presence(10) + at, b"a"), "{at}");
    }
    assert!(spoilt_in(presence(10) + 1, b"a") && !spoilt_in(presence(9) + 1, b"a"));
    assert!(!spoilt_in(presence(10) + 1, b"d"));
    assert!(!spoilt_in(presence(10), &[0; 20]) && !spoilt_in(presence(7), &[0; 20]));
    assert!(!spoilt_in(presence(12), &[2, 0]) && !spoilt_in(presence(12) + 17, &[1]));
    assert!(spoilt_in(presence(9) + 18, &[0, 0]) && !spoilt_in(presence(9) + 18, &[32]));
    // Modes, and some of an unused row.
    assert!(spoilt(presence(5) + 18, &[0, 31]));
    assert!(!spoilt(presence(5) + 18, &[32, 31]));
    assert!(!spoilt(presence(5) + 18, &[0, 32]));
    assert!(!spoilt(presence(10) + 18, &[31]));
    assert!(!spoilt(presence(511) + 19, &[1]));
    assert!(!spoilt(ENDS.start, &[1, 6, 1, 1, 1, 5, 0, 1]));
    assert!(!spoilt(ENDS.start + 4, &[1, 5, 0, 1]));
    assert!(!spoilt(ENDS.start + 8, &[0, 0, 0, 0, 1, 6, 1, 2]));
    assert!(!spoilt(ENDS.start + 4, &[1, 6, 2, 1]));
    assert!(!spoilt(APPLICATIONS.start, &[0, 0, 0, 1, 1, 3]));
    // An SDS that is not used, in each table.
    assert!(!spoilt(presence(10), &[3 + 1, b'a', 0]));
    assert!(!spoilt(APPLICATIONS.start, &[4]));
    assert!(!spoilt(ENDS.start, &[4, 5, 0, 1, 4, 6, 1, 1]));
}

#[test]
fn every_way_of_spoiling() {
    let mut random = Random::new(1);
    let base = scanned_base().0;
    let schema = from_bytes(&base).unwrap();
    for (name, way) in WAYS.iter().filter(|(name, _)| EXPECTED.iter().all(|(expected, _)| expected != name)) {
        let bases = (0..200).map(|_| spoiled(way, &mut random, &base, &schema));
        assert!(bases.filter(|spoiled| !is_sound(spoiled)).count() > 40, "{name}");
    }
}

/// Where there is something to spoil, a base stays sound or it doesn't, always.
#[test]
fn every_way_of_spoiling_on_purpose() {
    let mut random = Random::new(1);
    for (name, stays_sound) in EXPECTED {
        let (_, way) = WAYS.iter().find(|(way, _)| *way == name).expect("a way");
        let draws: &[fn(&mut Random) -> Schema] = match name.contains("nameless") {
            true => &[nameless::draw],
            false => &[modes::draw, nameless::draw],
        };
        for draw in draws {
            let mut changed = 0;
            for _ in 0..200 {
                let schema = draw(&mut random);
                let base = to_bytes(&schema);
                let spoiled = spoiled(way, &mut random, &base, &schema);
                changed += usize::from(spoiled != base);
                assert_eq!(is_sound(&spoiled), stays_sound || spoiled == base, "{name}");
            }
            assert!(changed > 150, "{name} {changed}");
        }
    }
}

/// Words that are missing or no numbers are taken as `crates/cases` takes them.
#[test]
fn lines_of_the_cases() {
    let long = "find - ".to_string() + &"a".repeat(121);
    let lines = [
        ("new_sds bus", " = 1 0 0 0"),
        ("fresh", " = 0 0 0 0"),
        ("# fresh", ""),
        ("", ""),
        (" fresh", " = ?"),
        ("new_sds bus", " = 0 1 0 0"),
        ("import 1", " = 4 0 0 0"),
        ("import 1 - object", " = 0 0 0 0"),
        ("new_object 1 unit object", " = 0 1 0 0"),
        ("new_object 1 box", " = 5 0 0 0"),
        ("new_object 1 box -", " = 4 0 0 0"),
        ("new_attribute 1 mass", " = 0 2 0 0"),
        ("new_attribute 1 size A", " = 5 0 0 0"),
        ("remove_sds 1A", " = 2 0 0 0"),
        ("remove_sds 100000000000000000000001", " = 2 0 0 0"),
        ("depth G 0", " = 2 0 0 0"),
        ("set_modes 1 unit 7", " = 0 0 0 0"),
        ("modes 1 1", " = 0 7 0 0"),
        ("set_modes 1 unit 4294967297 1", " = 19 0 0 0"),
        ("rename_number 1 1 Unit", " = 0 0 0 0"),
        ("rename_number 1 1", " = 4 0 0 0"),
        ("remove_number 1 3", " = 6 0 0 0"),
        ("remove_number 1", " = 16 1 0 0"),
        ("scan_object 1 0 1", " = 15 0 0 0"),
        ("scan_object 1 0 1 9999", " = 0 1 0 0 : 1"),
        ("output 2", " : 1 0"),
        ("write_file", " = 15 0 0 0"),
        ("write_file 512", " = 0 140 0 0"),
        ("read_file -", " = 20 0 0 0"),
        ("read_file 0f1", " = ?"),
        ("read_file 0F", " = ?"),
        ("read_file 0000000000000000000000000f", " = 20 12 0 0"),
        (&long[..127], " = 4 0 0 0"),
        (&long, " = ?"),
    ];
    let stdin = lines.map(|(line, _)| line).join("\n");
    let stdout = lines.map(|(line, behind)| format!("{line}{behind}\n")).concat();
    assert_eq!(printed(stdin.as_bytes()), (stdout.clone().into_bytes(), 27));
    // Of a longer line no more is printed.
    assert_eq!(printed((stdin + "aa\n").as_bytes()), (stdout.into_bytes(), 27));
}

/// A run in each mode finds no fault. Where a table is to be full, it has none, one and two places left. Every code is
/// asked and done, with every kind of list and of output.
#[test]
fn a_short_run() {
    let mut run = Run::new(None);
    for (number, mode) in Mode::ALL.into_iter().enumerate() {
        run.begin(7, number).unwrap();
        let mut free = BTreeSet::new();
        for _ in 0..1500 {
            run.step().unwrap();
            free.insert(free_places(mode, &run.schema));
        }
        for _ in 0..100 {
            run.spoiled_step().unwrap();
        }
        match mode {
            Mode::Small | Mode::Growing => {}
            Mode::Deep => assert!(run.schema.types.keys().any(|&ty| run.schema.longest_way_up(ty) > 90)),
            _ => assert!(free.is_superset(&[0, 1, 2].into()), "{mode:?}"),
        }
    }
    let asked = &run.counts.asked;
    for (call, codes) in [("scan_object", 10), ("scan_link", 5)] {
        (0..codes).for_each(|code| assert!(asked[&format!("{call}, code {code}")].done > 0, "{call} {code}"));
    }
    // Codes known and unknown, lists and outputs.
    let kinds = asked.keys().map(|what| what.split(' ').next().unwrap_or_default());
    let count = |kind: &str| kinds.clone().filter(|found| *found == kind).count();
    assert_eq!([count("scan_object,"), count("scan_link,"), count("output"), count("no")], [11, 7, 7, 10]);
    assert_eq!(asked.len(), 11 + 7 + 7 + 10 + 6);
}

/// What was asked too seldom under an empty list is named.
#[test]
fn seldom_under_an_empty_list() {
    let mut counts = Counts::new();
    let is_named = |counts: &Counts| counts.seldom().contains(&"no SDS listed: find 6".into());
    for _ in 0..20 {
        assert!(is_named(&counts));
        counts.ask(&Schema::fresh(), &find(&[], "object"), 0, [6, 0, 0, 0]);
    }
    assert!(!is_named(&counts));
}
