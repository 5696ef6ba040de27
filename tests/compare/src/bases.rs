//! The bases that the benchmark is run on: two as they come, three that are hard on the check of soundness, and one that is
//! on a list of descendants.
#![forbid(unsafe_code)]

use crate::schema::{Modes, Name, Presence, Schema, Type};

/// 3 SDSs, 100 types.
pub fn typical() -> Schema {
    grown(2, [50, 25, 24], [140, 60, 60])
}

/// Every table full.
pub fn full() -> Schema {
    grown(Schema::SDSS - 1, FULL, [Schema::PRESENCES, Schema::APPLICATIONS, Schema::ENDS])
}

/// Each type the child of the next, in one SDS.
pub fn chain() -> Schema {
    let mut s = with_sdss(1);
    add_chain(&mut s, Schema::TYPES - 1);
    s
}

/// The chain with the names, whose order is that of the rows, turning round at each type: whoever goes over the rows, in
/// either order, finds one more type each time.
pub fn zigzag() -> Schema {
    let mut s = chain();
    let here = s.sdss.get_mut(&1).expect("a used SDS");
    let names: Vec<Name> =
        here.named.iter().filter(|(_, present)| present.ty != 0).map(|(name, _)| name.clone()).collect();
    for (step, ty) in (1..=names.len()).rev().enumerate() {
        let middle = names.len() / 2;
        let place = if step % 2 == 0 { middle + step / 2 } else { middle - step.div_ceil(2) };
        here.named.insert(names[place].clone(), Presence::of(ty));
    }
    s
}

/// The full base but for its ends: a link type has one on each side in an SDS.
pub fn short() -> Schema {
    let [objects, attributes, links] = FULL;
    let mut s = with_types(Schema::SDSS - 1, FULL);
    import(&mut s, (0..PAIRS).map(link), Schema::PRESENCES);
    import(&mut s, (1..=objects).map(object).chain((0..attributes).map(attribute)), Schema::PRESENCES);
    apply(&mut s, objects, attributes, Schema::APPLICATIONS);
    add_short_ends(&mut s, links / 2);
    s
}

/// Every table full, such ends, as long a chain as the types left for it make, and fewer modes than all in every SDS but
/// SDS 0.
pub fn worst() -> Schema {
    let mut s = with_sdss(Schema::SDSS - 1);
    let chained = Schema::TYPES - 1 - 2 * PAIRS - 1;
    add_chain(&mut s, chained);
    add_attributes(&mut s, 1);
    add_pairs(&mut s, PAIRS);
    import(&mut s, (0..PAIRS).map(link), Schema::PRESENCES);
    import(&mut s, std::iter::once(attribute(0)).chain((1..=chained).rev().map(object)), Schema::PRESENCES);
    // One attribute type is applied to all the others.
    for (sds, here) in s.sdss.clone() {
        for to in here.named.keys() {
            if s.application_count() < Schema::APPLICATIONS {
                s.apply(sds, attribute(0).as_bytes(), to);
            }
        }
    }
    add_short_ends(&mut s, PAIRS);
    set_modes(&mut s);
    s
}

/// The object, attribute and link types of a full base.
const FULL: [usize; 3] = [60, 27, 40];

/// So many pairs in every SDS but SDS 0 have room for all ends, four of each pair.
const PAIRS: usize = Schema::ENDS.div_ceil(4 * (Schema::SDSS - 1));

fn object(n: usize) -> String {
    if n == 0 {
        "object".into()
    } else {
        format!("object_type_{n}")
    }
}

fn attribute(n: usize) -> String {
    format!("attribute_{n}")
}

/// The forward type of a pair.
fn link(n: usize) -> String {
    format!("link_{n}")
}

/// A schema of so many SDSs beside SDS 0, so many object, attribute and link types in the first of them, the link
/// types in pairs, and presences, applications and ends up to the limits.
fn grown(sdss: usize, types: [usize; 3], [presences, applications, ends]: [usize; 3]) -> Schema {
    let [objects, attributes, links] = types;
    let mut s = with_types(sdss, types);
    // The last place goes to a type without a reverse.
    let names = (1..=objects).map(object).chain((0..attributes).map(attribute)).chain((0..links / 2).map(link));
    import(&mut s, names, presences);
    apply(&mut s, objects, attributes, applications);
    add_ends(&mut s, objects, links / 2, ends);
    s
}

fn with_sdss(sdss: usize) -> Schema {
    let mut s = Schema::fresh();
    for sds in 1..=sdss {
        s.new_sds(format!("sds{sds}").as_bytes());
        s.import(sds, 0, b"object", b"", b"");
    }
    s
}

fn with_types(sdss: usize, [objects, attributes, links]: [usize; 3]) -> Schema {
    let mut s = with_sdss(sdss);
    // Several parents, and long ways up.
    for n in 1..=objects {
        let parents = if n < 3 { object(n / 2) } else { [object(n / 2), object(n - 1)].join(" ") };
        s.new_object(1, object(n).as_bytes(), parents.as_bytes());
    }
    add_attributes(&mut s, attributes);
    add_pairs(&mut s, links / 2);
    s
}

/// Types 1 and up, each with the next as its parent, the last with type 0. No calls make it: a new type gets the lowest
/// number, and its parents are there.
fn add_chain(s: &mut Schema, length: usize) {
    let here = s.sdss.get_mut(&1).expect("a used SDS");
    for n in 1..=length {
        let parent = if n < length { n + 1 } else { 0 };
        s.types.insert(n, Type::Object { parents: [parent].into() });
        here.named.insert(Name::new(object(n)), Presence::of(n));
    }
}

/// Modes that go round, so that no presence but that of SDS 0 has all in either set.
fn set_modes(s: &mut Schema) {
    for (sds, here) in s.sdss.clone().into_iter().skip(1) {
        for (n, name) in here.named.keys().enumerate() {
            let usage = (sds + n) % Modes::FIVE;
            s.set_modes(sds, name, Modes { usage, definition: Modes::FIVE - 1 - usage });
        }
    }
}

fn add_attributes(s: &mut Schema, attributes: usize) {
    for n in 0..attributes {
        s.new_attribute(1, attribute(n).as_bytes(), n % 6);
    }
}

fn add_pairs(s: &mut Schema, pairs: usize) {
    for n in 0..pairs {
        s.new_pair(1, link(n).as_bytes(), format!("reverse_{n}").as_bytes(), n % 3, 3);
    }
}

/// Types of SDS 1 into the SDSs behind it, up to the limit; parents come before their children.
fn import(s: &mut Schema, names: impl Iterator<Item = String> + Clone, presences: usize) {
    for sds in 2..s.sdss.len() {
        for name in names.clone() {
            if s.presence_count() < presences {
                s.import(sds, 1, name.as_bytes(), b"", b"");
            }
        }
    }
}

fn apply(s: &mut Schema, objects: usize, attributes: usize, applications: usize) {
    for sds in 1..s.sdss.len() {
        for n in 0..objects {
            for to in 0..attributes {
                if s.application_count() < applications {
                    s.apply(sds, attribute((n + to) % attributes).as_bytes(), object(to).as_bytes());
                }
            }
        }
    }
}

fn add_ends(s: &mut Schema, objects: usize, pairs: usize, ends: usize) {
    for sds in 1..s.sdss.len() {
        for n in 0..objects {
            for to in 0..pairs {
                if s.end_count() < ends {
                    s.apply_link(sds, link((n + to) % pairs).as_bytes(), object(to).as_bytes());
                }
            }
        }
    }
}

/// An origin and a destination for each pair in each SDS, and so for its reverse, as long as there is room.
fn add_short_ends(s: &mut Schema, pairs: usize) {
    for sds in 1..s.sdss.len() {
        let here = s.sdss[&sds].named.iter();
        let objects: Vec<Name> =
            here.filter(|(_, present)| s.is_object(present.ty)).map(|(name, _)| name.clone()).collect();
        for n in 0..pairs {
            if s.end_count() < Schema::ENDS {
                s.apply_link(sds, link(n).as_bytes(), &objects[n % objects.len()]);
                s.add_destination(sds, link(n).as_bytes(), &objects[(n + 1) % objects.len()]);
            }
        }
    }
}

#[cfg(test)]
mod tests {
    use super::{chain, full, short, typical, worst, zigzag};
    use crate::base::{is_sound, to_bytes};
    use crate::schema::{End, Schema};
    use std::collections::BTreeSet;

    fn sizes(s: &Schema) -> (usize, usize, [usize; 3]) {
        (s.sdss.len(), s.types.len(), [s.presence_count(), s.application_count(), s.end_count()])
    }

    #[test]
    fn every_base_is_sound_and_of_its_size() {
        let all = [
            (typical(), (3, 100, [140, 60, 60])),
            (full(), (16, 128, [512, 256, 512])),
            (chain(), (2, 128, [129, 0, 0])),
            (zigzag(), (2, 128, [129, 0, 0])),
            (short(), (16, 128, [512, 256, 512])),
            (worst(), (16, 128, [512, 256, 512])),
        ];
        for (schema, expected) in all {
            assert_eq!(sizes(&schema), expected);
            assert!(is_sound(&to_bytes(&schema)), "{expected:?}");
        }
    }

    #[test]
    fn long_chains() {
        for (schema, length) in [(chain(), 127), (zigzag(), 127), (worst(), 108)] {
            assert_eq!(schema.longest_way_up(1), length);
            (1..length).for_each(|ty| assert_eq!(schema.parents(ty), [ty + 1].into()));
        }
    }

    #[test]
    fn one_end_on_a_side() {
        for sds in [short(), worst()].iter().flat_map(|schema| schema.sdss.values()) {
            let sides = sds.ends.iter().map(|&End { link, side, .. }| (link, side));
            assert_eq!(sides.collect::<BTreeSet<_>>().len(), sds.ends.len());
        }
    }
}
