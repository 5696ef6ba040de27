//! Removals, most of them refused because of what stands in the way: schemas drawn for them, and what tells one such
//! refusal from another.
#![forbid(unsafe_code)]

use crate::calls::{Call, TELLING};
use crate::random::Random;
use crate::schema::{Application, End, Name, Presence, Schema, Sds, Side, Type, DESIGNATION};
use crate::shapes::in_any_order;
use std::collections::{BTreeMap, BTreeSet};

/// What should come up often: each number with what was to go, alone and with what goes wrong where the highest type or
/// that of the first row is told, the reverse is not looked at or the numbers are tried in another order; and removals
/// that are done although another SDS has what would stand in the way.
pub const REMOVED: [&str; 33] = [
    "12 of an SDS",
    "12 of an SDS, one of several",
    "12 of an SDS, not in the first row",
    "12 of an SDS, type 0",
    "16 of an object type",
    "16 of an object type, one of several",
    "16 of an object type, not in the first row",
    "16 of an object type, before 17",
    "16 of an object type, before 18",
    "17 of an attribute type",
    "17 of an attribute type, one of several",
    "17 of an attribute type, type 0",
    "17 of an object type",
    "17 of an object type, one of several",
    "17 of an object type, before 18",
    "17 of a link type",
    "17 of a link type, one of several",
    "17 of a link type, not in the first row",
    "17 of a link type, its reverse's",
    "17 of a link type, its reverse's below its own",
    "17 of a link type, before 18",
    "18 of an object type",
    "18 of an object type, one of several",
    "18 of a link type",
    "18 of a link type, one of several",
    "18 of a link type, not in the first row",
    "18 of a link type, type 0",
    "0 of an object type, 16 elsewhere",
    "0 of an object type, 17 elsewhere",
    "0 of an object type, 18 elsewhere",
    "0 of an attribute type, 17 elsewhere",
    "0 of a link type, 17 elsewhere",
    "0 of a link type, 18 elsewhere",
];

/// The traits of a removal with its answer; the schema is the one that it left.
pub fn traits(s: &Schema, call: &Call, [no, told, ..]: [usize; 4]) -> Vec<String> {
    match call {
        Call::RemoveSds { sds } if no == 12 => of_sds(&s.sdss[sds], told),
        Call::RemoveType { sds, name } if TELLING.contains(&no) => {
            let here = &s.sdss[sds];
            of_type(s, here, here.find(&name.0).expect("what is refused stays"), no, told)
        }
        Call::RemoveType { .. } if no == 0 => elsewhere(s, told),
        _ => Vec::new(),
    }
}

fn of_sds(here: &Sds, told: usize) -> Vec<String> {
    let first = here.types().next();
    named(
        "12 of an SDS",
        &[
            ("one of several", here.presences().count() > 1),
            ("not in the first row", first != Some(told)),
            ("type 0", told == 0),
        ],
    )
}

fn of_type(s: &Schema, here: &Sds, ty: usize, no: usize, told: usize) -> Vec<String> {
    let going = s.with_reverse(ty);
    let types = BTreeMap::from(s.in_the_way(here, &going));
    let its_own = &BTreeMap::from(s.in_the_way(here, &[ty]))[&no];
    let is_before = |higher: usize| no < higher && !types[&higher].is_empty();
    named(
        &format!("{no} of {}", kind(s, ty)),
        &[
            ("one of several", types[&no].len() > 1),
            ("not in the first row", in_the_first_row(here, &going, no, &types[&no]) != Some(told)),
            ("type 0", told == 0),
            ("its reverse's", its_own.is_empty()),
            ("its reverse's below its own", its_own.first().is_some_and(|&lowest| lowest > told)),
            ("before 17", is_before(17)),
            ("before 18", is_before(18)),
        ],
    )
}

/// Of a removal that was done: what other SDSs have.
fn elsewhere(s: &Schema, ty: usize) -> Vec<String> {
    let in_the_way = s.sdss.values().flat_map(|sds| s.in_the_way(sds, &s.with_reverse(ty)));
    let numbers: BTreeSet<usize> = in_the_way.filter(|(_, types)| !types.is_empty()).map(|(no, _)| no).collect();
    numbers.iter().map(|no| format!("0 of {}, {no} elsewhere", kind(s, ty))).collect()
}

/// What a removal is called, alone and with each that is so.
fn named(removal: &str, traits: &[(&str, bool)]) -> Vec<String> {
    let so = traits.iter().filter(|(_, is_so)| *is_so).map(|(what, _)| format!("{removal}, {what}"));
    [removal.to_string()].into_iter().chain(so).collect()
}

fn kind(s: &Schema, ty: usize) -> &'static str {
    match s.types[&ty] {
        Type::Object { .. } => "an object type",
        Type::Attribute { .. } => "an attribute type",
        Type::Link { .. } => "a link type",
    }
}

/// The type that the first row in the way tells; maps and sets are in the order of the rows.
fn in_the_first_row(here: &Sds, going: &[usize], no: usize, types: &BTreeSet<usize>) -> Option<usize> {
    let told = |[one, other]: [usize; 2]| match going.contains(&one) {
        true => Some(other),
        false => going.contains(&other).then_some(one),
    };
    match no {
        17 => here.applications.iter().find_map(|a| told([a.to, a.attribute])),
        18 => here.ends.iter().find_map(|end| told([end.link, end.object])),
        _ => here.types().find(|ty| types.contains(ty)),
    }
}

/// Few types of every kind, under any numbers, in four SDSs: one holds them all, two some of them, one some that are no
/// object types.
pub fn draw(random: &mut Random) -> Schema {
    let mut s = Schema::fresh();
    let groups = draw_types(random);
    s.types.extend(groups.concat());
    let numbers = random.shuffled((1..Schema::SDSS).collect());
    // Without type 0 there is no object type.
    let sdss = [(true, false), (true, true), (true, true), (false, true)];
    for (sds, (has_type_0, lacks_some)) in numbers.into_iter().zip(sdss) {
        let mut held = if has_type_0 { vec![0] } else { Vec::new() };
        for group in &groups {
            let has_parents = s.parents(group[0].0).iter().all(|parent| held.contains(parent));
            if has_parents && !(lacks_some && random.one_in(2)) {
                held.extend(group.iter().map(|(ty, _)| ty));
            }
        }
        let here = draw_sds(random, &s, sds, &held);
        s.sdss.insert(sds, here);
    }
    s
}

/// Groups of types that are present together, no object type before its parents.
fn draw_types(random: &mut Random) -> Vec<Vec<(usize, Type)>> {
    let mut numbers = random.shuffled((1..Schema::TYPES).collect()).into_iter();
    let mut number = || numbers.next().expect("few are used");
    let mut groups = Vec::new();
    // Children come before all else: the other object types are left to applications and ends.
    let mut with_children = vec![0];
    for _ in 0..5 {
        let (ty, count) = (number(), 1 + random.below(2));
        let parents = random.shuffled(with_children.clone()).into_iter().take(count).collect();
        groups.push(vec![(ty, Type::Object { parents })]);
        if with_children.len() < 3 {
            with_children.push(ty);
        }
    }
    groups.extend(other_types(number));
    groups
}

/// Groups of attribute and link types, with the numbers that come next.
pub fn other_types(mut number: impl FnMut() -> usize) -> Vec<Vec<(usize, Type)>> {
    let mut groups: Vec<_> = (0..4).map(|value_kind| vec![(number(), Type::Attribute { value_kind })]).collect();
    groups.push(vec![(number(), Type::Link { category: DESIGNATION, reverse: None })]);
    for _ in 0..2 {
        let (ty, reverse) = (number(), number());
        let forward = Type::Link { category: 0, reverse: Some(reverse) };
        groups.push(vec![(ty, forward), (reverse, Type::Link { category: 2, reverse: Some(ty) })]);
    }
    groups
}

/// An SDS that holds the types. It has no applications and ends, few or many.
pub fn draw_sds(random: &mut Random, s: &Schema, sds: usize, held: &[usize]) -> Sds {
    let mut here = Sds::new(format!("sds{sds}").as_bytes());
    let names = (0..held.len()).map(|n| Name::new(format!("type_{n:03}"))).collect();
    here.named.extend(in_any_order(random, names).into_iter().zip(held.iter().copied().map(Presence::of)));
    let of_kind = |is_wanted: fn(&Schema, usize) -> bool| -> Vec<usize> {
        held.iter().copied().filter(|&ty| is_wanted(s, ty)).collect()
    };
    let (links, objects) = (of_kind(Schema::is_link), of_kind(Schema::is_object));
    let (applied, ended) = if random.one_in(4) { (0, 0) } else { (random.below(7), random.below(9)) };
    for attribute in of_kind(Schema::is_attribute) {
        for _ in 0..random.below(applied + 1) {
            let types = if random.one_in(2) { &objects } else { &links };
            here.applications.extend(random.pick(types).map(|to| Application { to, attribute }));
        }
    }
    for &link in &links {
        for _ in 0..random.below(ended + 1) {
            let side = if random.one_in(2) { Side::Origin } else { Side::Destination };
            let end = random.pick(&objects).map(|object| End { link, side, object });
            let mirror = end.zip(s.reverse(link)).map(|(end, reverse)| end.mirror(reverse));
            here.ends.extend(end.into_iter().chain(mirror));
        }
    }
    here
}

/// The removal of a type from an SDS other than SDS 0, less often of an attribute type, since one number alone tells of
/// it; or the removal of an SDS.
pub fn removal(random: &mut Random, s: &Schema) -> Call {
    let is_wanted: fn(&Schema, usize) -> bool = match random.below(5) {
        0 => Schema::is_attribute,
        1 | 2 => Schema::is_object,
        _ => Schema::is_link,
    };
    let present = s.sdss.range(1..).flat_map(|(&sds, here)| here.named.iter().map(move |row| (sds, row)));
    let wanted: Vec<_> = present.filter(|(_, (_, present))| is_wanted(s, present.ty)).collect();
    let sdss: Vec<usize> = s.sdss.keys().copied().collect();
    match random.pick(&wanted) {
        Some((sds, (name, _))) if !random.one_in(12) => Call::RemoveType { sds, name: name.into() },
        _ => Call::RemoveSds { sds: random.pick(&sdss).expect("there is SDS 0") },
    }
}

#[cfg(test)]
mod tests {
    use super::REMOVED;
    use crate::run::Run;
    use crate::{HISTORY, LONG};

    /// A long run has as many histories, and each ends with removals.
    #[test]
    fn no_removal_is_seldom() {
        let mut run = Run::new(None);
        let seldom = |run: &Run| run.counts.seldom().iter().filter(|what| what.starts_with("removal")).count();
        assert_eq!(seldom(&run), REMOVED.len());
        (0..LONG / HISTORY).for_each(|_| run.removals().unwrap());
        assert_eq!(seldom(&run), 0);
    }
}
