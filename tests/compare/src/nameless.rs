//! Presences without a local name (02, Q-8): schemas drawn for them, imports that bring them, calls that handle them by
//! number, cannot mean them by name or list them, and what tells one such call from another.
#![forbid(unsafe_code)]

use crate::calls::{Call, Text};
use crate::coverage::Traits;
use crate::modes::{self, has_fewer, kind};
use crate::random::{Random, MALFORMED};
use crate::removals::{draw_sds, other_types};
use crate::schema::{is_same, Application, End, Modes, Name, Presence, Schema, Sds, Side, Type};
use crate::shapes::visible;
use crate::spellings::{free_name, rename_all};
use std::collections::{BTreeMap, BTreeSet};

/// What should come up often. "Its name" is one that a nameless type bears in another SDS and no type bears here. Where
/// parents alone were brought, or one twice, with names or modes, or not counted, the answer or the base would be another.
pub const NAMELESS: [&str; 148] = [
    "import 0, brings 1",
    "import 0, brings 2",
    "import 0, brings 3 or 4",
    "import 0, brings 5 or more",
    "import 0, an ancestor three steps up",
    "import 0, an ancestor by two ways",
    "import 0, type 0",
    "import 0, an ancestor of a higher number",
    "import 0, an ancestor there by name",
    "import 0, an ancestor there, nameless",
    "import 0, an ancestor there, brought before",
    "import 0, between nameless rows",
    "import 0, an ancestor with a name in the source",
    "import 0, an ancestor's name is taken",
    "import 0, an ancestor nameless in the source",
    "import 0, an ancestor of fewer modes",
    "import 0, an ancestor with an attribute type",
    "import 0, an ancestor with an end",
    "import 0, under an ancestor's name",
    "import 0, under its name",
    "import 0, into an empty SDS",
    "import 0, just room enough",
    "import 14, one place too few",
    "import 14, room for the type alone",
    "import 14, room for its parents too",
    "import 11, ancestors missing",
    "import 11, before 14",
    "import 9, nameless there",
    "import 9, nameless there, before 11",
    "import 6, nameless in the source",
    "rename_number 2",
    "rename_number 3",
    "rename_number 3, to its own name",
    "rename_number 4",
    "rename_number 4, blank",
    "rename_number 4, before 6",
    "rename_number 6",
    "rename_number 6, before 11",
    "rename_number 6, in another SDS alone",
    "rename_number 6, an unused number",
    "rename_number 6, 128 or more",
    "rename_number 6, by its high bytes alone",
    "rename_number 11, a nameless type",
    "rename_number 11, a named type",
    "rename_number 11, in another spelling",
    "rename_number 0, a nameless type",
    "rename_number 0, a nameless type, brought",
    "rename_number 0, a nameless type of fewer modes",
    "rename_number 0, a nameless type to its name",
    "rename_number 0, another's name",
    "rename_number 0, an object type",
    "rename_number 0, an attribute type",
    "rename_number 0, a designation type",
    "rename_number 0, a paired type",
    "rename_number 0, of fewer modes",
    "rename_number 0, to its own name",
    "rename_number 0, the spelling alone",
    "remove_number 2",
    "remove_number 3",
    "remove_number 6",
    "remove_number 6, in another SDS alone",
    "remove_number 6, an unused number",
    "remove_number 6, 128 or more",
    "remove_number 6, by its high bytes alone",
    "remove_number 0, a nameless type",
    "remove_number 0, a nameless type, brought",
    "remove_number 0, a nameless type, gone",
    "remove_number 0, a nameless type, the last of its SDS",
    "remove_number 0, an object type",
    "remove_number 0, an attribute type",
    "remove_number 0, a designation type",
    "remove_number 0, a pair by its forward number",
    "remove_number 0, a pair by its reverse number",
    "remove_number 0, its ancestors stay",
    "remove_number 16, of a nameless type",
    "remove_number 16, of a named type",
    "remove_number 16, by a nameless type",
    "remove_number 16, before 17",
    "remove_number 16, before 18",
    "remove_number 17, of a nameless type",
    "remove_number 17, of a named type",
    "remove_number 17, of a pair",
    "remove_number 17, by a nameless type",
    "remove_number 17, before 18",
    "remove_number 18, of a nameless type",
    "remove_number 18, of a named type",
    "remove_number 18, of a pair",
    "remove_number 18, by a nameless type",
    "remove_type 0, its ancestors stay",
    "remove_type 16, by a nameless type",
    "remove_type 17, by a nameless type",
    "remove_type 18, by a nameless type",
    "remove_type 6, its name",
    "remove_sds 12, nameless types alone",
    "remove_sds 12, the lowest nameless",
    "remove_sds 12, the lowest by name",
    "rename 6, its name",
    "rename 0, to its name",
    "set_modes 6, its name",
    "new_object 0, among nameless types",
    "new_object 0, its name",
    "new_object 0, of a child of a nameless type",
    "new_object 6, its name for a parent",
    "new_attribute 0, its name",
    "new_designation 0, its name",
    "new_pair 0, its name",
    "apply 6, its name",
    "unapply 6, its name, applied",
    "apply_link 6, its name",
    "unapply_link 6, its name, an end",
    "add_destination 6, its name",
    "remove_destination 6, its name, an end",
    "4, a blank name where a type is nameless",
    "find 4, blank",
    "find 6, its name",
    "find 0, nameless in one listed before",
    "find 0, named by its number",
    "name 0, nameless",
    "name 0, nameless, not in the first row",
    "name 0, named, behind nameless rows",
    "modes 0, nameless",
    "modes 0, nameless, others than all",
    "modes 0, brought",
    "modes 0, nameless and named",
    "scan_object 0, code 0, lists a nameless type",
    "scan_object 0, code 1, lists a nameless type",
    "scan_object 0, code 2, lists a nameless type",
    "scan_object 0, code 3, lists a nameless type",
    "scan_object 0, code 4, of a nameless type",
    "scan_object 0, code 5, of a nameless type",
    "scan_object 0, code 6, of a nameless type",
    "scan_object 0, code 7, of a nameless type",
    "scan_object 0, code 8, of a nameless type",
    "scan_object 0, code 9, of a nameless type",
    "scan_object 0, code 5, by a nameless ancestor",
    "scan_object 0, code 7, by a nameless ancestor",
    "scan_object 0, code 9, by a nameless ancestor",
    "scan_link 0, code 0, lists a nameless type",
    "scan_link 0, code 1, lists a nameless type",
    "scan_link 0, code 2, lists a nameless type",
    "scan_link 0, code 3, lists a nameless type",
    "profile 0, lists a nameless type",
    "profile 0, of a nameless type",
    "depth 0, of a nameless type",
    "descendant_set 0, lists a nameless type",
    "descendant_set 0, of a nameless type",
    "scan_link 7, a nameless type",
    "scan_object 6, nameless in an SDS not listed",
];

/// The presences that are nameless, each an SDS and a type.
pub fn nameless(s: &Schema) -> BTreeSet<(usize, usize)> {
    s.sdss.iter().flat_map(|(&sds, here)| here.nameless.keys().map(move |&ty| (sds, ty))).collect()
}

/// What became of presences since the schema was drawn: those that an import brought and that are nameless still, and
/// those that were nameless and have a name now.
#[derive(Default)]
pub struct Since {
    brought: BTreeSet<(usize, usize)>,
    named: BTreeSet<(usize, usize)>,
}

impl Since {
    /// A call was done that found these nameless, and left the schema.
    pub fn keep(&mut self, before: &BTreeSet<(usize, usize)>, s: &Schema) {
        let after = nameless(s);
        self.brought.extend(&after - before);
        self.brought.retain(|presence| after.contains(presence));
        self.named.extend(before - &after);
        self.named.retain(|(sds, ty)| s.sdss.get(sds).is_some_and(|here| here.name_of(*ty).is_some()));
    }
}

/// The traits of a call on the schema, before it is made.
pub fn add_traits(traits: &mut Traits, s: &Schema, since: &Since, call: &Call) {
    match call {
        Call::Import { target, source, name, new_name, .. } => {
            let (Some(to), Some(from)) = (s.sdss.get(target), s.sdss.get(source)) else { return };
            traits.add(meant(s, from, &name.0).is_some(), &[6], "6, nameless in the source");
            let Some((kept, ty)) = from.kept(&name.0) else { return };
            let new_name: &[u8] = if new_name.0.is_empty() { kept } else { &new_name.0 };
            add_import(traits, s, since, [(*target, to), (*source, from)], ty, new_name);
        }
        Call::RenameNumber { sds, ty, new_name } => add_rename_number(traits, s, since, (*sds, *ty), &new_name.0),
        Call::RemoveNumber { sds, ty } => {
            let here = s.sdss.get(sds);
            traits.add(true, &[2], "2");
            traits.add(true, &[3], "3");
            add_not_there(traits, s, here, *ty);
            let Some(here) = here.filter(|here| here.holds(*ty)) else { return };
            add_remove_number(traits, s, since, (*sds, here), *ty);
        }
        Call::RemoveType { sds, name } => {
            let Some(here) = s.sdss.get(sds) else { return };
            traits.add(meant(s, here, &name.0).is_some(), &[6], "6, its name");
            if let Some(ty) = here.find(&name.0) {
                add_removal(traits, s, here, ty);
            }
        }
        Call::RemoveSds { sds } => {
            let Some(here) = s.sdss.get(sds).filter(|here| !here.nameless.is_empty()) else { return };
            let is_nameless = here.types().min().is_some_and(|lowest| here.nameless.contains_key(&lowest));
            traits.add(here.named.is_empty(), &[12], "12, nameless types alone");
            traits.add(!here.named.is_empty() && is_nameless, &[12], "12, the lowest nameless");
            traits.add(!is_nameless, &[12], "12, the lowest by name");
        }
        Call::Find { schema, name } => add_find(traits, s, since, schema, &name.0),
        Call::Name { sds, ty } => {
            let Some(here) = s.sdss.get(sds) else { return };
            let is_nameless = here.nameless.contains_key(ty);
            traits.add(is_nameless, &[0], "0, nameless");
            let is_first = here.types().next() == Some(*ty);
            traits.add(is_nameless && !is_first, &[0], "0, nameless, not in the first row");
            traits.add(!is_nameless && !here.nameless.is_empty(), &[0], "0, named, behind nameless rows");
        }
        Call::Modes { schema, ty } => {
            let held: Vec<(usize, &Sds)> =
                listed(s, schema).into_iter().filter(|(_, here)| here.holds(*ty)).collect();
            let is_nameless = is_nameless(s, schema, *ty);
            let is_fewer = held.iter().all(|(_, here)| has_fewer(here, *ty));
            let is_brought = held.iter().all(|(sds, _)| since.brought.contains(&(*sds, *ty)));
            let is_somewhere = held.iter().any(|(_, here)| here.nameless.contains_key(ty));
            traits.add(is_nameless, &[0], "0, nameless");
            traits.add(is_nameless && is_fewer, &[0], "0, nameless, others than all");
            traits.add(is_nameless && is_brought, &[0], "0, brought");
            traits.add(!is_nameless && is_somewhere, &[0], "0, nameless and named");
        }
        Call::ScanObject { .. }
        | Call::ScanLink { .. }
        | Call::Profile { .. }
        | Call::Depth { .. }
        | Call::DescendantSet { .. } => add_question(traits, s, call),
        _ => add_named(traits, s, call),
    }
}

/// The nameless type of the SDS that bears the name in another, if no type bears it here.
fn meant(s: &Schema, here: &Sds, name: &[u8]) -> Option<usize> {
    if here.nameless.is_empty() || here.find(name).is_some() {
        return None;
    }
    let bearers = s.sdss.values().filter_map(|other| other.find(name));
    bearers.filter(|ty| here.nameless.contains_key(ty)).min()
}

/// The listed SDSs that are used, with their numbers.
fn listed<'a>(s: &'a Schema, list: &[u8]) -> Vec<(usize, &'a Sds)> {
    list.iter().map(|&sds| sds.into()).filter_map(|sds| Some((sds, s.sdss.get(&sds)?))).collect()
}

/// Whether listed SDSs hold the type, and none has a name for it.
pub fn is_nameless(s: &Schema, list: &[u8], ty: usize) -> bool {
    let mut held = listed(s, list).into_iter().filter(|(_, here)| here.holds(ty)).peekable();
    held.peek().is_some() && held.all(|(_, here)| here.nameless.contains_key(&ty))
}

/// The ancestors of the type that the SDS lacks.
fn missing(s: &Schema, to: &Sds, ty: usize) -> BTreeSet<usize> {
    s.ancestors(ty).into_iter().filter(|&ancestor| !to.holds(ancestor)).collect()
}

/// Free places for presences.
fn free_places(s: &Schema) -> usize {
    Schema::PRESENCES - s.presence_count()
}

fn add_import(
    traits: &mut Traits,
    s: &Schema,
    since: &Since,
    [(target, to), (_, from)]: [(usize, &Sds); 2],
    ty: usize,
    new_name: &[u8],
) {
    let is_nameless = to.nameless.contains_key(&ty);
    traits.add(is_nameless, &[9], "9, nameless there");
    traits.add(is_nameless && to.find(new_name).is_some(), &[9], "9, nameless there, before 11");
    traits.add(meant(s, to, new_name).is_some(), &[0], "0, under its name");
    let missing = missing(s, to, ty);
    match missing.len() {
        0 => return,
        1 => traits.add(true, &[0], "0, brings 1"),
        2 => traits.add(true, &[0], "0, brings 2"),
        3 | 4 => traits.add(true, &[0], "0, brings 3 or 4"),
        _ => traits.add(true, &[0], "0, brings 5 or more"),
    }
    let any = |is_so: &dyn Fn(usize) -> bool| missing.iter().any(|&ancestor| is_so(ancestor));
    let parents = s.parents(ty);
    let grandparents: BTreeSet<usize> = parents.iter().flat_map(|&parent| s.parents(parent)).collect();
    traits.add(
        any(&|a| !parents.contains(&a) && !grandparents.contains(&a)),
        &[0],
        "0, an ancestor three steps up",
    );
    let ways = |a: usize| s.children(a).into_iter().filter(|child| *child == ty || missing.contains(child)).count();
    traits.add(any(&|a| ways(a) > 1), &[0], "0, an ancestor by two ways");
    traits.add(missing.contains(&0), &[0], "0, type 0");
    traits.add(any(&|a| a > ty), &[0], "0, an ancestor of a higher number");
    let mut there = s.ancestors(ty).into_iter().filter(|&ancestor| to.holds(ancestor)).collect::<BTreeSet<usize>>();
    traits.add(there.iter().any(|&a| to.name_of(a).is_some()), &[0], "0, an ancestor there by name");
    there.retain(|ancestor| to.nameless.contains_key(ancestor));
    traits.add(!there.is_empty(), &[0], "0, an ancestor there, nameless");
    traits.add(
        there.iter().any(|&a| since.brought.contains(&(target, a))),
        &[0],
        "0, an ancestor there, brought before",
    );
    let is_between = |a: usize| to.nameless.range(..a).next().is_some() && to.nameless.range(a..).next().is_some();
    traits.add(any(&is_between), &[0], "0, between nameless rows");
    let is_taken = |name: &Name| to.find(name).is_some();
    traits.add(any(&|a| from.name_of(a).is_some()), &[0], "0, an ancestor with a name in the source");
    traits.add(any(&|a| from.name_of(a).is_some_and(is_taken)), &[0], "0, an ancestor's name is taken");
    traits.add(any(&|a| from.nameless.contains_key(&a)), &[0], "0, an ancestor nameless in the source");
    traits.add(any(&|a| has_fewer(from, a)), &[0], "0, an ancestor of fewer modes");
    let has_attribute = |a: usize| from.applications.iter().any(|application| application.to == a);
    traits.add(any(&has_attribute), &[0], "0, an ancestor with an attribute type");
    traits.add(any(&|a| from.ends.iter().any(|end| end.object == a)), &[0], "0, an ancestor with an end");
    let is_given = |name: &Name| is_same(name, new_name);
    traits.add(any(&|a| from.name_of(a).is_some_and(is_given)), &[0], "0, under an ancestor's name");
    traits.add(to.is_empty(), &[0], "0, into an empty SDS");
    let (needed, free) = (1 + missing.len(), free_places(s));
    traits.add(needed == free, &[0], "0, just room enough");
    traits.add(needed == free + 1, &[14], "14, one place too few");
    traits.add(free > 0, &[14], "14, room for the type alone");
    traits.add(free > (&parents & &missing).len(), &[14], "14, room for its parents too");
    traits.add(true, &[11], "11, ancestors missing");
    traits.add(needed > free, &[11], "11, before 14");
}

/// Why a type is not there, by its number.
fn add_not_there(traits: &mut Traits, s: &Schema, here: Option<&Sds>, ty: usize) {
    let is_low = |low: usize| low != ty && here.is_some_and(|here| here.holds(low));
    traits.add(true, &[6], "6");
    traits.add(s.types.contains_key(&ty), &[6], "6, in another SDS alone");
    traits.add(ty < Schema::TYPES && !s.types.contains_key(&ty), &[6], "6, an unused number");
    traits.add(ty >= Schema::TYPES, &[6], "6, 128 or more");
    traits.add(is_low(ty % 256) || is_low(ty % (1 << 32)), &[6], "6, by its high bytes alone");
}

fn add_rename_number(traits: &mut Traits, s: &Schema, since: &Since, (sds, ty): (usize, usize), new_name: &[u8]) {
    let here = s.sdss.get(&sds);
    let bearer = here.and_then(|here| here.kept(new_name));
    let own = here.and_then(|here| here.name_of(ty));
    traits.add(true, &[2], "2");
    traits.add(true, &[3], "3");
    traits.add(own.is_some_and(|own| **own == *new_name), &[3], "3, to its own name");
    traits.add(true, &[4], "4");
    traits.add(new_name.is_empty(), &[4], "4, blank");
    traits.add(here.is_some_and(|here| !here.holds(ty)), &[4], "4, before 6");
    add_not_there(traits, s, here, ty);
    traits.add(bearer.is_some(), &[6], "6, before 11");
    let Some(here) = here.filter(|here| here.holds(ty)) else { return };
    let is_otherwise = bearer.is_some_and(|(kept, _)| **kept != *new_name);
    traits.add(is_otherwise, &[11], "11, in another spelling");
    traits.add(own.is_some(), &[11], "11, a named type");
    traits.add(own.is_none(), &[11], "11, a nameless type");
    let meant = meant(s, here, new_name);
    traits.add(meant.is_some_and(|meant| meant != ty), &[0], "0, another's name");
    match own {
        None => {
            traits.add(true, &[0], "0, a nameless type");
            traits.add(since.brought.contains(&(sds, ty)), &[0], "0, a nameless type, brought");
            traits.add(has_fewer(here, ty), &[0], "0, a nameless type of fewer modes");
            traits.add(meant == Some(ty), &[0], "0, a nameless type to its name");
        }
        Some(own) => {
            traits.add(true, &[0], &format!("0, {}", kind(s, ty).unwrap_or_default()));
            traits.add(has_fewer(here, ty), &[0], "0, of fewer modes");
            traits.add(**own == *new_name, &[0], "0, to its own name");
            traits.add(**own != *new_name && is_same(own, new_name), &[0], "0, the spelling alone");
        }
    }
}

fn add_remove_number(traits: &mut Traits, s: &Schema, since: &Since, (sds, here): (usize, &Sds), ty: usize) {
    let is_nameless = here.nameless.contains_key(&ty);
    let going = s.with_reverse(ty);
    match (is_nameless, s.reverse(ty)) {
        (true, _) => {
            traits.add(true, &[0], "0, a nameless type");
            traits.add(since.brought.contains(&(sds, ty)), &[0], "0, a nameless type, brought");
            let holders = s.sdss.values().filter(|sds| sds.holds(ty)).count();
            traits.add(holders == 1, &[0], "0, a nameless type, gone");
            traits.add(here.presences().count() == 1, &[0], "0, a nameless type, the last of its SDS");
        }
        (false, Some(reverse)) => {
            let by = if ty < reverse { "forward" } else { "reverse" };
            traits.add(true, &[0], &format!("0, a pair by its {by} number"));
        }
        (false, None) => traits.add(true, &[0], &format!("0, {}", kind(s, ty).unwrap_or_default())),
    }
    let types = BTreeMap::from(s.in_the_way(here, &going));
    let of = if is_nameless { "of a nameless type" } else { "of a named type" };
    for (numbers, no) in [(&[16], 16), (&[17], 17), (&[18], 18)] {
        traits.add(true, numbers, &format!("{no}, {of}"));
        traits.add(no > 16 && going.len() == 2, numbers, &format!("{no}, of a pair"));
    }
    traits.add(!types[&17].is_empty(), &[16], "16, before 17");
    traits.add(!types[&18].is_empty(), &[16], "16, before 18");
    traits.add(!types[&18].is_empty(), &[17], "17, before 18");
    add_removal(traits, s, here, ty);
}

/// Of a removal by name or by number: nameless types that stay, and that stand in its way.
fn add_removal(traits: &mut Traits, s: &Schema, here: &Sds, ty: usize) {
    let is_nameless = |ty: &usize| here.nameless.contains_key(ty);
    traits.add(s.parents(ty).iter().any(is_nameless), &[0], "0, its ancestors stay");
    let types = BTreeMap::from(s.in_the_way(here, &s.with_reverse(ty)));
    for (numbers, no) in [(&[16], 16), (&[17], 17), (&[18], 18)] {
        traits.add(types[&no].first().is_some_and(is_nameless), numbers, &format!("{no}, by a nameless type"));
    }
}

fn add_find(traits: &mut Traits, s: &Schema, since: &Since, list: &[u8], name: &[u8]) {
    let listed = listed(s, list);
    let is_nameless = |ty: usize| listed.iter().any(|(_, here)| here.nameless.contains_key(&ty));
    traits.add(name.is_empty() && listed.iter().any(|(_, here)| !here.nameless.is_empty()), &[4], "4, blank");
    traits.add(listed.iter().any(|(_, here)| meant(s, here, name).is_some()), &[6], "6, its name");
    let Some((sds, ty)) = listed.iter().find_map(|(sds, here)| Some((*sds, here.find(name)?))) else { return };
    let mut before = listed.iter().take_while(|(other, _)| *other != sds);
    let is_before = is_nameless(ty) && before.any(|(_, here)| here.nameless.contains_key(&ty));
    traits.add(is_before, &[0], "0, nameless in one listed before");
    traits.add(since.named.contains(&(sds, ty)), &[0], "0, named by its number");
}

/// Of calls that take names alone: those that a nameless type has elsewhere.
fn add_named(traits: &mut Traits, s: &Schema, call: &Call) {
    let meant_in = |sds: &usize, name: &Text| s.sdss.get(sds).and_then(|here| meant(s, here, &name.0));
    let find = |sds: &usize, name: &Text| s.sdss.get(sds).and_then(|here| here.find(&name.0));
    if let Call::NewObject { sds, .. }
    | Call::Apply { sds, .. }
    | Call::ApplyLink { sds, .. }
    | Call::AddDestination { sds, .. }
    | Call::Rename { sds, .. }
    | Call::SetModes { sds, .. } = call
    {
        let has_nameless = s.sdss.get(sds).is_some_and(|here| !here.nameless.is_empty());
        let (_, texts) = call.inputs();
        let count = if matches!(call, Call::SetModes { .. }) { 1 } else { 2 };
        let has_blank = texts[..count].iter().any(|text| text.is_empty());
        traits.add_any(has_nameless && has_blank, &[4], "4, a blank name where a type is nameless");
    }
    match call {
        Call::NewObject { sds, name, parents } => {
            let Some(here) = s.sdss.get(sds).filter(|here| !here.nameless.is_empty()) else { return };
            let parents: Vec<&[u8]> = parents.0.split(|&byte| byte == b' ').collect();
            traits.add(true, &[0], "0, among nameless types");
            traits.add(meant(s, here, &name.0).is_some(), &[0], "0, its name");
            let has_nameless = |ty| s.parents(ty).iter().any(|parent| here.nameless.contains_key(parent));
            let is_child = |parent: &&[u8]| here.find(parent).is_some_and(has_nameless);
            traits.add(parents.iter().any(is_child), &[0], "0, of a child of a nameless type");
            let is_meant = |parent: &&[u8]| meant(s, here, parent).is_some();
            traits.add(parents.iter().any(is_meant), &[6], "6, its name for a parent");
        }
        Call::NewAttribute { sds, name, .. } | Call::NewDesignation { sds, name } => {
            traits.add(meant_in(sds, name).is_some(), &[0], "0, its name");
        }
        Call::NewPair { sds, name, reverse_name, .. } => {
            let is_meant = [name, reverse_name].iter().any(|name| meant_in(sds, name).is_some());
            traits.add(is_meant, &[0], "0, its name");
        }
        Call::Rename { sds, name, new_name } => {
            traits.add(meant_in(sds, name).is_some(), &[6], "6, its name");
            traits.add(meant_in(sds, new_name).is_some(), &[0], "0, to its name");
        }
        Call::SetModes { sds, name, .. } => traits.add(meant_in(sds, name).is_some(), &[6], "6, its name"),
        Call::Apply { sds, attribute, to } => {
            let has_attribute = find(sds, attribute).is_some();
            traits.add(has_attribute && meant_in(sds, to).is_some(), &[6], "6, its name");
        }
        Call::ApplyLink { sds, link, object } | Call::AddDestination { sds, link, object } => {
            traits.add(find(sds, link).is_some() && meant_in(sds, object).is_some(), &[6], "6, its name");
        }
        Call::Unapply { sds, attribute, to } => {
            let Some((attribute, to)) = find(sds, attribute).zip(meant_in(sds, to)) else { return };
            let is_applied = s.sdss[sds].applications.iter().any(|a| (a.attribute, a.to) == (attribute, to));
            traits.add(is_applied, &[6], "6, its name, applied");
        }
        Call::UnapplyLink { sds, link, object } | Call::RemoveDestination { sds, link, object } => {
            let Some((link, object)) = find(sds, link).zip(meant_in(sds, object)) else { return };
            let is_end = s.sdss[sds].ends.iter().any(|end| (end.link, end.object) == (link, object));
            traits.add(is_end, &[6], "6, its name, an end");
        }
        _ => {}
    }
}

/// Of questions about types: nameless is what no listed SDS has a name for.
fn add_question(traits: &mut Traits, s: &Schema, call: &Call) {
    let (Some(asked), ([ty, ..], _)) = (call.asked(), call.inputs()) else { return };
    let is_nameless = |ty: usize| is_nameless(s, asked.schema, ty);
    if s.sdss.values().all(|here| here.nameless.is_empty()) {
        return;
    }
    let list = match call {
        Call::ScanObject { schema, ty, code } => s.scan_object(schema, *ty, *code, usize::MAX).list,
        Call::ScanLink { schema, ty, code } => s.scan_link(schema, *ty, *code, usize::MAX).list,
        Call::Profile { schema, ty } => s.profile(schema, *ty, usize::MAX).list,
        _ => Vec::new(),
    };
    let lists = list.iter().any(|&ty| is_nameless(ty.into()));
    match call {
        Call::ScanObject { code, .. } => {
            traits.add(lists && *code < 4, &[0], &format!("0, code {code}, lists a nameless type"));
            let is_of = *code >= 4 && !list.is_empty() && is_nameless(ty);
            traits.add(is_of, &[0], &format!("0, code {code}, of a nameless type"));
            let has = |a: usize| !s.scan_object(asked.schema, a, code - 1, usize::MAX).list.is_empty();
            let is_by = [5, 7, 9].contains(code) && s.ancestors(ty).into_iter().any(|a| is_nameless(a) && has(a));
            traits.add(is_by, &[0], &format!("0, code {code}, by a nameless ancestor"));
            let is_elsewhere = s.sdss.values().any(|here| here.nameless.contains_key(&ty));
            traits.add(is_elsewhere && !asked.schema.is_empty(), &[6], "6, nameless in an SDS not listed");
        }
        Call::ScanLink { code, .. } => {
            traits.add(lists, &[0], &format!("0, code {code}, lists a nameless type"));
            traits.add(is_nameless(ty), &[7], "7, a nameless type");
        }
        _ => {
            let marked = s.descendants(ty).into_iter().any(is_nameless);
            let is_listed = lists || matches!(call, Call::DescendantSet { .. }) && marked;
            traits.add(is_listed, &[0], "0, lists a nameless type");
            traits.add(is_nameless(ty), &[0], "0, of a nameless type");
        }
    }
}

/// Six SDSs beside SDS 0: one holds all types, three some of them, one only what is above some, one none. Some object types
/// are nameless, all where there is nothing else, and have any modes, applications and ends. Half of the time the table of
/// presences is nearly full.
pub fn draw(random: &mut Random) -> Schema {
    let sdss = random.shuffled((1..Schema::SDSS).collect());
    let mut s = drawn(random, &sdss);
    if random.one_in(2) {
        fill_but(&mut s, sdss[4], random.below(10));
    }
    s
}

/// The same with the table full; its last rows are those of nameless types.
pub fn full(random: &mut Random) -> Schema {
    let mut sdss = random.shuffled((1..Schema::SDSS).collect());
    let greatest = (0..6).max_by_key(|&place| sdss[place]).expect("there are some");
    sdss.swap(greatest, 4);
    let mut s = drawn(random, &sdss);
    fill_but(&mut s, sdss[4], 0);
    s
}

fn drawn(random: &mut Random, sdss: &[usize]) -> Schema {
    let mut s = Schema::fresh();
    let mut numbers = random.shuffled((1..Schema::TYPES).collect());
    let objects = numbers.split_off(numbers.len() - 5 - random.below(9));
    draw_objects(random, &mut s, &objects);
    let others = other_types(|| numbers.pop().expect("few are used"));
    s.types.extend(others.concat());
    let all: Vec<usize> = s.types.keys().copied().collect();
    for (place, &sds) in sdss[..6].iter().enumerate() {
        let mut chosen = random.shuffled(objects.clone());
        chosen.truncate(1 + random.below(3));
        let above: BTreeSet<usize> = chosen.iter().flat_map(|&ty| s.ancestors(ty)).collect();
        let held: Vec<usize> = match place {
            0 => all.clone(),
            1..=3 => {
                let mut held = above;
                held.extend(chosen);
                for group in others.iter().filter(|_| !random.one_in(3)) {
                    held.extend(group.iter().map(|(ty, _)| ty));
                }
                held.into_iter().collect()
            }
            4 if random.one_in(3) => vec![0],
            4 => above.into_iter().collect(),
            _ => Vec::new(),
        };
        let here = draw_sds(random, &s, sds, &held);
        s.sdss.insert(sds, here);
    }
    rename_all(random, &mut s);
    for (&sds, taken) in sdss.iter().zip([3, 5, 6, 7, 8]) {
        take_names(random, &mut s, sds, taken);
        join_nameless(random, &mut s, sds);
    }
    // One that has a name nowhere.
    let (ty, sds) = (numbers.pop().expect("few are used"), sdss[1 + random.below(4)]);
    s.types.insert(ty, Type::Object { parents: [0].into() });
    s.sdss.get_mut(&sds).expect("a used SDS").nameless.insert(ty, Modes::ALL);
    if !random.one_in(4) {
        modes::give(random, &mut s);
    }
    s
}

/// Object types one below the other, in layers, or as it comes.
fn draw_objects(random: &mut Random, s: &mut Schema, numbers: &[usize]) {
    let shape = random.below(3);
    let mut above = vec![0];
    for &ty in numbers {
        let (reach, count) = match shape {
            0 => (1, 1),
            1 => (3, 2),
            _ => (6, 1 + random.below(Schema::PARENTS)),
        };
        let nearest = above[above.len().saturating_sub(reach)..].to_vec();
        let parents = random.shuffled(nearest).into_iter().take(count).collect();
        s.types.insert(ty, Type::Object { parents });
        above.push(ty);
    }
}

/// Takes the names of object types away in the SDS, of so many in eight.
pub fn take_names(random: &mut Random, s: &mut Schema, sds: usize, taken: usize) {
    let types: Vec<usize> = s.sdss[&sds].types().filter(|&ty| s.is_object(ty)).collect();
    let here = s.sdss.get_mut(&sds).expect("a used SDS");
    for ty in types {
        if random.below(8) < taken {
            take_name(here, ty);
        }
    }
}

/// Applies attribute types to some nameless types of the SDS, and makes some of them ends.
fn join_nameless(random: &mut Random, s: &mut Schema, sds: usize) {
    let here = &s.sdss[&sds];
    let (attributes, links): (Vec<usize>, Vec<usize>) =
        here.types().filter(|&ty| !s.is_object(ty)).partition(|&ty| s.is_attribute(ty));
    let (mut applications, mut ends) = (here.applications.clone(), here.ends.clone());
    for &object in here.nameless.keys() {
        let attribute = random.pick(&attributes).filter(|_| random.one_in(4));
        applications.extend(attribute.map(|attribute| Application { to: object, attribute }));
        let side = if random.one_in(2) { Side::Origin } else { Side::Destination };
        let end = random.pick(&links).filter(|_| random.one_in(4)).map(|link| End { link, side, object });
        ends.extend(end);
        ends.extend(end.and_then(|end| Some(end.mirror(s.reverse(end.link)?))));
    }
    let here = s.sdss.get_mut(&sds).expect("a used SDS");
    (here.applications, here.ends) = (applications, ends);
}

/// Takes the name of a type that has one away.
pub fn take_name(here: &mut Sds, ty: usize) {
    if let Some(modes) = here.modes_of(ty) {
        here.take_away(ty);
        here.nameless.insert(ty, modes);
    }
}

/// What the names of types begin with that only fill the table.
const FILLER: &[u8] = b"filler_";

/// Attribute types in every SDS but SDS 0 and one more, until so many places for presences are left.
fn fill_but(s: &mut Schema, left_out: usize, free: usize) {
    let mut left = free_places(s).saturating_sub(free);
    let unused: Vec<usize> = (1..Schema::TYPES).filter(|ty| !s.types.contains_key(ty)).collect();
    for (n, ty) in unused.into_iter().enumerate() {
        for (_, here) in s.sdss.range_mut(1..).filter(|(sds, _)| **sds != left_out).take(left) {
            s.types.insert(ty, Type::Attribute { value_kind: 0 });
            here.named.insert(Name([FILLER, format!("{n:03}").as_bytes()].concat()), Presence::of(ty));
            left -= 1;
        }
    }
}

/// A call that brings nameless types, handles them by number, cannot mean them by name, or lists them.
pub fn call(random: &mut Random, s: &Schema) -> Call {
    match random.below(80) {
        0..=15 => import(random, s),
        16..=23 => rename_number(random, s),
        24..=34 => remove_number(random, s),
        35..=37 => remove_type(random, s),
        38 | 39 => remove_sds(random, s),
        40..=45 => after_import(random, s),
        46..=51 => find(random, s),
        52..=54 => new_type(random, s),
        55..=61 => by_its_name(random, s),
        62 | 63 => {
            let sds = sds_with_nameless(random, s);
            let types: Vec<usize> = s.sdss[&sds].types().collect();
            Call::Name { sds, ty: random.pick(&types).unwrap_or(0) }
        }
        _ => question(random, s),
    }
}

/// One of the items, as often one of each class.
fn of_each<T: Clone, C: Ord>(
    random: &mut Random,
    items: impl Iterator<Item = T>,
    class: impl Fn(&T) -> C,
) -> Option<T> {
    let mut classes: BTreeMap<C, Vec<T>> = BTreeMap::new();
    items.for_each(|item| classes.entry(class(&item)).or_default().push(item));
    let classes: Vec<Vec<T>> = classes.into_values().collect();
    random.pick(&classes).and_then(|class| random.pick(&class))
}

/// The presences in SDSs other than SDS 0, each an SDS and a type, but for those that only fill the table.
fn present(s: &Schema) -> impl Iterator<Item = (usize, usize)> + '_ {
    s.sdss.range(1..).flat_map(|(&sds, here)| {
        let named = here.named.iter().filter(|(name, _)| !name.starts_with(FILLER)).map(|(_, present)| present.ty);
        here.nameless.keys().copied().chain(named).map(move |ty| (sds, ty))
    })
}

/// What a removal of the type would be told: the number and the type, none where it is done.
fn held_by(s: &Schema, here: &Sds, ty: usize) -> Option<(usize, usize)> {
    let in_the_way = s.in_the_way(here, &s.with_reverse(ty));
    in_the_way.iter().find_map(|(no, types)| Some((*no, *types.first()?)))
}

/// An SDS other than SDS 0, mostly one in which a type is nameless.
fn sds_with_nameless(random: &mut Random, s: &Schema) -> usize {
    let used: Vec<usize> = s.sdss.range(1..).map(|(&sds, _)| sds).collect();
    let having: Vec<usize> = used.iter().copied().filter(|sds| !s.sdss[sds].nameless.is_empty()).collect();
    match random.pick(&having) {
        Some(sds) if !random.one_in(6) => sds,
        _ => random.pick(&used).unwrap_or(0),
    }
}

/// The name of a nameless type of the SDS, in any spelling.
fn its_name(random: &mut Random, s: &Schema, here: &Sds, is_wanted: impl Fn(usize) -> bool) -> Option<Vec<u8>> {
    let wanted = here.nameless.keys().copied().filter(|&ty| is_wanted(ty));
    let names = wanted.flat_map(|ty| s.sdss.values().filter_map(move |other| other.name_of(ty)));
    let mut names = random.shuffled(names.collect()).into_iter();
    names.find(|name: &&Name| here.find(name).is_none()).map(|name| random.spelt(name))
}

fn any(_: usize) -> bool {
    true
}

/// What a new name can be: a free one, that of a nameless type, or that of another; seldom none.
fn new_name(random: &mut Random, s: &Schema, here: &Sds) -> Text {
    let borne: Vec<&Name> = here.named.keys().collect();
    Text(match (random.below(10), random.pick(&borne), its_name(random, s, here, any)) {
        (0, ..) => random.pick(&MALFORMED).expect("there are some").to_vec(),
        (1, Some(borne), _) => borne.0.clone(),
        (2, Some(borne), _) => random.respelt(borne),
        (3 | 4, _, Some(name)) => name,
        _ => free_name(random, here),
    })
}

/// Whether a name that the type has in some SDS is borne here.
fn is_taken(s: &Schema, here: &Sds, ty: usize) -> bool {
    s.sdss.values().filter_map(|other| other.name_of(ty)).any(|name| here.find(name).is_some())
}

/// An import into an SDS that mostly lacks ancestors of the type.
fn import(random: &mut Random, s: &Schema) -> Call {
    let used: Vec<usize> = s.sdss.range(1..).map(|(&sds, _)| sds).collect();
    let target = random.pick(&used).unwrap_or(0);
    let to = &s.sdss[&target];
    let named = s.sdss.iter().flat_map(|(&source, from)| from.named.iter().map(move |row| (source, row)));
    let named = named.filter(|(_, (name, _))| !name.starts_with(FILLER));
    let all: Vec<(usize, &Name, usize)> =
        named.map(|(source, (name, present))| (source, name, present.ty)).collect();
    let (aim, free) = (random.below(18), free_places(s));
    let is_aimed_at = |&(_, name, ty): &(usize, &Name, usize)| {
        let missing = missing(s, to, ty);
        let is_so = match aim {
            0 | 1 => return to.nameless.contains_key(&ty),
            2 | 3 => missing.len() + 1 == free,
            4 | 5 => missing.len() == free,
            6 | 7 => missing.len() >= free,
            8 => missing.len() == 1,
            9 => missing.len() == 2,
            10 => missing.len() > 4,
            11 => to.find(name).is_some(),
            12 | 13 => missing.iter().any(|&ancestor| is_taken(s, to, ancestor)),
            14..=16 => s.ancestors(ty).iter().any(|ancestor| to.nameless.get(ancestor) == Some(&Modes::ALL)),
            _ => true,
        };
        is_so && !missing.is_empty() && !to.holds(ty)
    };
    let aimed_at: Vec<(usize, &Name, usize)> = all.iter().copied().filter(is_aimed_at).collect();
    let (source, name, ty) = random.pick(&aimed_at).or_else(|| random.pick(&all)).expect("there is SDS 0");
    let from = &s.sdss[&source];
    let above: Vec<&Name> = missing(s, to, ty).into_iter().filter_map(|a| from.name_of(a)).collect();
    let borne: Vec<&Name> = to.named.keys().collect();
    let new_name = match (random.below(8), random.pick(&above), random.pick(&borne)) {
        (0..=5, _, Some(borne)) if [0, 6, 7, 11].contains(&aim) => borne.into(),
        (0 | 1, ..) if to.find(name).is_none() => Text(Vec::new()),
        (2 | 3, Some(above), _) => above.into(),
        (4, ..) => new_name(random, s, to),
        _ if aim == 11 => Text(Vec::new()),
        _ => Text(free_name(random, to)),
    };
    // At times a name that means nothing in the source.
    let name = match its_name(random, s, from, any) {
        Some(name) if random.one_in(10) => name,
        _ => random.spelt(name),
    };
    Call::Import { target, source, name: Text(name), new_name, new_reverse_name: Text(Vec::new()) }
}

/// An SDS and a type number: mostly of a type that is there, as often nameless as of each kind; else of one that is
/// elsewhere, of none, or of one but for its high bytes.
fn by_number(random: &mut Random, s: &Schema) -> (usize, usize) {
    let sds = match random.below(12) {
        0 => 0,
        1 => random.odd_number(Schema::SDSS),
        _ => sds_with_nameless(random, s),
    };
    let here = s.sdss.get(&sds).unwrap_or(&s.sdss[&0]);
    let there: Vec<usize> = here.types().collect();
    let elsewhere: Vec<usize> = s.types.keys().copied().filter(|&ty| !here.holds(ty)).collect();
    let unused: Vec<usize> = (0..Schema::TYPES).filter(|ty| !s.types.contains_key(ty)).collect();
    let over = random.pick(&[128, 256, 256, 1 << 32, 1 << 32, 1 << 63]).unwrap_or(0);
    let found = match random.below(9) {
        0 => random.pick(&elsewhere),
        1 => random.pick(&unused),
        2 => random.pick(&there).map(|ty| ty + over),
        _ => None,
    };
    let of_each_kind = |ty: &usize| (here.nameless.contains_key(ty), kind(s, *ty), has_fewer(here, *ty));
    let found = found.or_else(|| of_each(random, there.into_iter(), of_each_kind));
    (sds, found.unwrap_or(0))
}

fn rename_number(random: &mut Random, s: &Schema) -> Call {
    let (sds, ty) = by_number(random, s);
    let here = s.sdss.get(&sds).unwrap_or(&s.sdss[&0]);
    let new_name = match (random.below(8), here.name_of(ty)) {
        (0 | 1, Some(own)) => own.into(),
        (2, Some(own)) => Text(random.respelt(own)),
        (0, None) => Text(Vec::new()),
        (1 | 2, None) => its_name(random, s, here, |other| other == ty).map_or(Text(Vec::new()), Text),
        (3, None) => here.named.keys().next().map_or(Text(Vec::new()), Text::from),
        (3 | 4, Some(own)) if sds == 0 => own.into(),
        _ => new_name(random, s, here),
    };
    Call::RenameNumber { sds, ty, new_name }
}

/// Mostly of what is there: as often of a nameless type as of each kind, with each thing in the way and with nothing.
fn remove_number(random: &mut Random, s: &Schema) -> Call {
    let class = |&(sds, ty): &(usize, usize)| {
        let here = &s.sdss[&sds];
        let held_by = held_by(s, here, ty).map(|(no, lowest)| (no, here.nameless.contains_key(&lowest)));
        let is_forward = s.reverse(ty).is_some_and(|reverse| ty < reverse);
        (here.nameless.contains_key(&ty), kind(s, ty), is_forward, held_by)
    };
    let is_free = |(sds, ty): &(usize, usize)| held_by(s, &s.sdss[sds], *ty).is_none();
    let is_last = |&(_, ty): &(usize, usize)| s.sdss.values().filter(|sds| sds.holds(ty)).count() == 1;
    let found = match random.below(6) {
        0..=2 => of_each(random, present(s), class),
        3 => of_each(random, nameless(s).into_iter().filter(is_free), is_last),
        _ => None,
    };
    let (sds, ty) = found.unwrap_or_else(|| by_number(random, s));
    Call::RemoveNumber { sds, ty }
}

/// What is nameless with all modes, as an import leaves it, is handled: it goes, or a child of it does that holds it, it is
/// named, or its modes are asked for.
fn after_import(random: &mut Random, s: &Schema) -> Call {
    let brought = nameless(s).into_iter().filter(|&(sds, ty)| !has_fewer(&s.sdss[&sds], ty));
    let class = |&(sds, ty): &(usize, usize)| held_by(s, &s.sdss[&sds], ty).map(|(no, _)| no);
    let Some((sds, ty)) = of_each(random, brought, class) else { return import(random, s) };
    let here = &s.sdss[&sds];
    match (random.below(4), held_by(s, here, ty)) {
        (0, _) => Call::RenameNumber { sds, ty, new_name: Text(free_name(random, here)) },
        (1, _) => Call::Modes { schema: vec![sds as u8], ty },
        (_, None) => Call::RemoveNumber { sds, ty },
        (_, Some((16, child))) => Call::RemoveNumber { sds, ty: child },
        _ => question(random, s),
    }
}

/// By name, mostly of what a nameless type holds, or of what leaves one.
fn remove_type(random: &mut Random, s: &Schema) -> Call {
    let class = |&(sds, ty): &(usize, usize)| {
        let here = &s.sdss[&sds];
        let held_by = held_by(s, here, ty).map(|(no, lowest)| (no, here.nameless.contains_key(&lowest)));
        let leaves = s.parents(ty).iter().any(|parent| here.nameless.contains_key(parent));
        (held_by, leaves)
    };
    let is_wanted = |presence: &(usize, usize)| match class(presence) {
        (None, leaves) => leaves,
        (Some((_, by_nameless)), _) => by_nameless,
    };
    let named = present(s).filter(|&(sds, ty)| s.sdss[&sds].name_of(ty).is_some());
    match of_each(random, named.filter(is_wanted), class) {
        Some((sds, ty)) => {
            let name = s.sdss[&sds].name_of(ty).expect("it has a name");
            Call::RemoveType { sds, name: name.into() }
        }
        None => remove_number(random, s),
    }
}

/// As often of an SDS of nameless types alone as of others.
fn remove_sds(random: &mut Random, s: &Schema) -> Call {
    let class = |sds: &usize| {
        let here = &s.sdss[sds];
        let is_nameless = here.types().min().is_some_and(|lowest| here.nameless.contains_key(&lowest));
        (here.nameless.is_empty(), here.named.is_empty(), is_nameless)
    };
    Call::RemoveSds { sds: of_each(random, s.sdss.keys().copied(), class).expect("there is SDS 0") }
}

/// Names of nameless types, and of what was nameless, under some SDSs; at times the blank one.
fn find(random: &mut Random, s: &Schema) -> Call {
    // What an import brought has all modes when it is named too.
    let objects = present(s).filter(|&(sds, ty)| s.is_object(ty) && s.sdss[&sds].name_of(ty).is_some());
    if let Some((sds, ty)) = of_each(random, objects, |(sds, ty)| has_fewer(&s.sdss[sds], *ty)) {
        if !random.one_in(3) {
            let name = s.sdss[&sds].name_of(ty).map_or(Vec::new(), |name| random.spelt(name));
            return Call::Find { schema: vec![sds as u8], name: Text(name) };
        }
    }
    let sds = sds_with_nameless(random, s);
    let here = &s.sdss[&sds];
    let mut schema = vec![sds as u8];
    if random.one_in(2) {
        schema.extend(random.shuffled(s.used()).into_iter().filter(|&other| usize::from(other) != sds));
    }
    let name = match (random.below(4), its_name(random, s, here, any)) {
        (0, _) => Vec::new(),
        (_, Some(name)) => name,
        _ => free_name(random, here),
    };
    Call::Find { schema, name: Text(name) }
}

/// A new type, mostly under the name of a nameless one.
fn new_type(random: &mut Random, s: &Schema) -> Call {
    let sds = sds_with_nameless(random, s);
    let here = &s.sdss[&sds];
    let name = match its_name(random, s, here, any) {
        Some(name) if !random.one_in(4) => Text(name),
        _ => new_name(random, s, here),
    };
    match random.below(6) {
        0 => Call::NewAttribute { sds, name, value_kind: random.below(6) },
        1 => Call::NewDesignation { sds, name },
        2 => {
            let reverse_name = Text(free_name(random, here));
            Call::NewPair { sds, name, reverse_name, category: 0, reverse_category: 3 }
        }
        _ => new_object(random, s, sds, name),
    }
}

fn new_object(random: &mut Random, s: &Schema, sds: usize, name: Text) -> Call {
    let here = &s.sdss[&sds];
    let objects = here.named.iter().filter(|(_, present)| s.is_object(present.ty)).map(|(name, _)| name);
    let parent = random.pick(&objects.collect::<Vec<_>>()).map(|parent| parent.0.clone());
    let meant = its_name(random, s, here, any);
    let parents = match (random.below(6), parent, meant) {
        (0, Some(parent), _) => [parent, Vec::new()],
        (1 | 2, Some(parent), Some(meant)) => [meant, parent],
        (_, Some(parent), _) => return Call::NewObject { sds, name, parents: Text(parent) },
        (_, None, meant) => return Call::NewObject { sds, name, parents: Text(meant.unwrap_or_default()) },
    };
    Call::NewObject { sds, name, parents: Text(parents.join(&b' ')) }
}

/// A call that gives the name of a nameless type where a type has to bear it, or a blank one.
fn by_its_name(random: &mut Random, s: &Schema) -> Call {
    let aim = random.below(14);
    let is_wanted = |here: &Sds, ty: usize| match aim {
        0 | 1 => here.applications.iter().any(|application| application.to == ty),
        2 | 3 => here.ends.iter().any(|end| end.object == ty),
        8 => here.types().any(|ty| s.is_attribute(ty)),
        9..=12 => here.types().any(|ty| s.is_link(ty)),
        _ => true,
    };
    let nameless: Vec<(usize, usize)> =
        nameless(s).into_iter().filter(|&(sds, ty)| is_wanted(&s.sdss[&sds], ty)).collect();
    let Some((sds, ty)) = random.pick(&nameless) else { return question(random, s) };
    let here = &s.sdss[&sds];
    let Some(mut name) = its_name(random, s, here, |other| other == ty).map(Text) else {
        return question(random, s);
    };
    if random.one_in(8) {
        name = Text(Vec::new());
    }
    let joined = |pairs: Vec<[usize; 2]>| pairs.into_iter().filter(|pair| pair[1] == ty).map(|pair| pair[0]);
    let mut name_of = |types: Vec<usize>| match random.pick(&types).and_then(|ty| here.name_of(ty)) {
        Some(name) => name.into(),
        None => Text(free_name(random, here)),
    };
    let of_kind = |is_wanted: fn(&Schema, usize) -> bool| here.types().filter(|&ty| is_wanted(s, ty)).collect();
    match aim {
        0 | 1 => {
            let applied = joined(here.applications.iter().map(|a| [a.attribute, a.to]).collect());
            Call::Unapply { sds, attribute: name_of(applied.collect()), to: name }
        }
        2 | 3 => {
            let ended = joined(here.ends.iter().map(|end| [end.link, end.object]).collect());
            let link = name_of(ended.collect());
            match aim {
                2 => Call::UnapplyLink { sds, link, object: name },
                _ => Call::RemoveDestination { sds, link, object: name },
            }
        }
        4 => Call::RemoveType { sds, name },
        5 => Call::Rename { sds, name, new_name: Text(free_name(random, here)) },
        6 => Call::Rename {
            sds,
            name: name_of(here.named.values().map(|present| present.ty).collect()),
            new_name: name,
        },
        7 => Call::SetModes { sds, name, usage: Modes::FIVE, definition: 0 },
        8 => Call::Apply { sds, attribute: name_of(of_kind(Schema::is_attribute)), to: name },
        9 | 10 => Call::ApplyLink { sds, link: name_of(of_kind(Schema::is_link)), object: name },
        11 | 12 => Call::AddDestination { sds, link: name_of(of_kind(Schema::is_link)), object: name },
        _ => {
            let name = Text(free_name(random, here));
            new_object(random, s, sds, name)
        }
    }
}

/// About a type under one SDS or several, mostly about a nameless one, and where there is something to list; at times about
/// what is not listed.
fn question(random: &mut Random, s: &Schema) -> Call {
    let sds = sds_with_nameless(random, s);
    let mut schema = vec![sds as u8];
    if random.one_in(3) {
        let others = random.shuffled(s.used()).into_iter().filter(|&other| usize::from(other) != sds);
        schema.extend(others.take(1 + random.below(2)));
    }
    let seen = visible(s, &schema);
    let blank: Vec<usize> = s.sdss[&sds].nameless.keys().copied().collect();
    let objects: Vec<usize> = seen.iter().copied().filter(|&ty| s.is_object(ty)).collect();
    let hidden: Vec<usize> = s.types.keys().copied().filter(|ty| !seen.contains(ty)).collect();
    let types = match random.below(12) {
        0 => hidden,
        1..=7 => blank,
        _ => objects,
    };
    let ty = random.pick(&types).unwrap_or(0);
    match random.below(32) {
        0..=3 => match random.below(2) {
            0 => Call::Modes { schema: s.used(), ty },
            _ => Call::Modes { schema, ty },
        },
        4 => Call::Depth { schema, ty },
        5 | 6 => Call::Profile { schema, ty },
        7 | 8 => Call::DescendantSet { schema, ty },
        9 => Call::ScanLink { schema, ty, code: random.below(5) },
        10..=14 => {
            let code = random.below(4);
            let is_listed = |ty: &usize| !s.scan_link(&schema, *ty, code, usize::MAX).list.is_empty();
            let links: Vec<usize> = seen.into_iter().filter(is_listed).collect();
            Call::ScanLink { ty: random.pick(&links).unwrap_or(ty), schema, code }
        }
        _ => {
            let code = random.below(10);
            let is_listed = |ty: &usize| !s.scan_object(&schema, *ty, code, usize::MAX).list.is_empty();
            let listing: Vec<usize> = types.into_iter().filter(is_listed).collect();
            Call::ScanObject { ty: random.pick(&listing).unwrap_or(ty), schema, code }
        }
    }
}

#[cfg(test)]
mod tests {
    use super::{draw, full, NAMELESS};
    use crate::random::Random;
    use crate::run::Run;
    use crate::schema::{Modes, Schema};
    use crate::{HISTORY, LONG};

    /// A long run has as many histories, and each ends with such calls.
    #[test]
    fn no_nameless_type_is_seldom() {
        let mut run = Run::new(None);
        let seldom = |run: &Run| -> Vec<String> {
            run.counts.seldom().into_iter().filter(|what| what.starts_with("nameless: ")).collect()
        };
        assert_eq!(seldom(&run).len(), NAMELESS.len());
        (0..LONG / HISTORY).for_each(|_| run.nameless().unwrap());
        assert_eq!(seldom(&run), [""; 0]);
        // Nothing is counted that no floor is asked of.
        assert_eq!(run.counts.nameless.len(), NAMELESS.len());
    }

    /// Nameless types of all sorts: with other modes, with applications, with ends, in an SDS with nothing else.
    #[test]
    fn drawn_schemas_are_as_called() {
        let mut random = Random::new(1);
        let mut seen = [0; 4];
        for s in (0..200).map(|_| draw(&mut random)) {
            for here in s.sdss.values().filter(|here| !here.nameless.is_empty()) {
                let is_nameless = |ty: &usize| here.nameless.contains_key(ty);
                let is_so = [
                    here.nameless.values().any(|modes| *modes != Modes::ALL),
                    here.applications.iter().any(|a| is_nameless(&a.to)),
                    here.ends.iter().any(|end| is_nameless(&end.object)),
                    here.named.is_empty(),
                ];
                seen.iter_mut().zip(is_so).for_each(|(seen, is_so)| *seen += usize::from(is_so));
            }
        }
        assert!(seen.iter().all(|&seen| seen > 50), "{seen:?}");
        assert!((0..50).all(|_| full(&mut random).presence_count() == Schema::PRESENCES));
    }
}
