//! Modes of presences (02, Q-2): schemas drawn for them, calls that set them, ask for them, or should keep or renew
//! them, and what tells one such call from another.
#![forbid(unsafe_code)]

use crate::calls::{Call, Text};
use crate::coverage::Traits;
use crate::random::{importable, Random, MALFORMED};
use crate::schema::{Modes, Name, Schema, Sds, Type};
use crate::shapes::visible;
use crate::spellings::{self, free_name};
use std::collections::BTreeSet;

/// What should come up often: each number of both calls, with what goes wrong where the numbers are tried in another
/// order or not at full width, a reverse is left as it was, sets are met and not joined, or one SDS alone is asked; and
/// fewer modes than all where an import should give them anew, a rename keep them or a removal take them away.
pub const MODED: [&str; 56] = [
    "set_modes 0",
    "set_modes 2",
    "set_modes 2, before 19",
    "set_modes 3",
    "set_modes 3, before 19",
    "set_modes 4",
    "set_modes 4, before 19",
    "set_modes 19",
    "set_modes 19, by usage alone",
    "set_modes 19, by definition alone",
    "set_modes 19, by both",
    "set_modes 19, by 32",
    "set_modes 19, by its high bytes alone",
    "set_modes 19, before 6",
    "set_modes 6",
    "set_modes 6, borne in another SDS",
    "set_modes 0, an object type",
    "set_modes 0, an attribute type",
    "set_modes 0, a designation type",
    "set_modes 0, a pair by its forward name",
    "set_modes 0, a pair by its reverse name",
    "set_modes 0, a pair in neighbouring rows",
    "set_modes 0, a pair in rows apart",
    "set_modes 0, to the empty set",
    "set_modes 0, to both empty",
    "set_modes 0, to what it was",
    "set_modes 0, usage alone",
    "set_modes 0, definition alone",
    "set_modes 0, not in another SDS",
    "modes 0",
    "modes 2",
    "modes 6",
    "modes 6, an empty list",
    "modes 6, in SDSs not listed",
    "modes 6, before 8",
    "modes 8",
    "modes 0, an object type",
    "modes 0, an attribute type",
    "modes 0, a designation type",
    "modes 0, a paired type",
    "modes 0, type 0 in SDS 0",
    "modes 0, both empty",
    "modes 0, in one of several listed",
    "modes 0, in two or more listed",
    "modes 0, a usage more than each",
    "modes 0, a definition more than each",
    "modes 0, more than the first listed",
    "modes 0, more in an SDS not listed",
    "import 0, of fewer",
    "import 0, of a pair of fewer",
    "import 0, where there were fewer",
    "import 0, of a pair where there were fewer",
    "rename 0, of fewer",
    "rename 0, of fewer, to another row",
    "rename 0, of one of a pair of fewer",
    "remove_type 0, of fewer",
];

/// The types that have gone from an SDS in which they had fewer modes than all, since the schema was drawn.
#[derive(Default)]
pub struct Gone(BTreeSet<(usize, usize)>);

impl Gone {
    /// What the call takes away if it is done.
    pub fn going(s: &Schema, call: &Call) -> Vec<(usize, usize)> {
        let (sds, ty) = match call {
            Call::RemoveType { sds, name } => (*sds, s.sdss.get(sds).and_then(|here| here.find(&name.0))),
            Call::RemoveNumber { sds, ty } => (*sds, Some(*ty)),
            _ => return Vec::new(),
        };
        let is_fewer = |ty: &usize| s.sdss.get(&sds).is_some_and(|here| has_fewer(here, *ty));
        let fewer = ty.filter(is_fewer).map_or(Vec::new(), |ty| s.with_reverse(ty));
        fewer.into_iter().map(|ty| (sds, ty)).collect()
    }

    /// The call was done, and left the schema. The number of what is nowhere any more may soon be that of another.
    pub fn keep(&mut self, s: &Schema, going: Vec<(usize, usize)>) {
        self.0.extend(going);
        let can_return = |sds: &Sds, ty: usize| s.types.contains_key(&ty) && !sds.holds(ty);
        self.0.retain(|(sds, ty)| s.sdss.get(sds).is_some_and(|sds| can_return(sds, *ty)));
    }
}

/// The traits of a call on the schema, before it is made.
pub fn add_traits(traits: &mut Traits, s: &Schema, gone: &Gone, call: &Call) {
    match call {
        &Call::SetModes { sds, ref name, usage, definition } => {
            add_setting(traits, s, sds, &name.0, Modes { usage, definition });
        }
        Call::Modes { schema, ty } => add_question(traits, s, schema, *ty),
        Call::Import { target, source, name, .. } => {
            let Some((from, ty)) = s.sdss.get(source).and_then(|from| Some((from, from.find(&name.0)?))) else {
                return;
            };
            let (is_pair, is_again) = (s.reverse(ty).is_some(), gone.0.contains(&(*target, ty)));
            traits.add(has_fewer(from, ty), &[0], "0, of fewer");
            traits.add(has_fewer(from, ty) && is_pair, &[0], "0, of a pair of fewer");
            traits.add(is_again, &[0], "0, where there were fewer");
            traits.add(is_again && is_pair, &[0], "0, of a pair where there were fewer");
        }
        Call::Rename { sds, name, new_name } => {
            let Some((here, kept, ty)) = fewer_borne(s, *sds, &name.0) else { return };
            traits.add(true, &[0], "0, of fewer");
            let new_name = Name::new(&new_name.0);
            let is_passed = |other: &Name| (kept < other) != (new_name < *other) && other != kept;
            traits.add(here.named.keys().any(is_passed), &[0], "0, of fewer, to another row");
            traits.add(s.reverse(ty).is_some(), &[0], "0, of one of a pair of fewer");
        }
        Call::RemoveType { sds, name } => {
            traits.add(fewer_borne(s, *sds, &name.0).is_some(), &[0], "0, of fewer");
        }
        _ => {}
    }
}

/// Whether the type is in the SDS with fewer modes than all.
pub fn has_fewer(here: &Sds, ty: usize) -> bool {
    here.modes_of(ty).is_some_and(|modes| modes != Modes::ALL)
}

/// The SDS, the name as it is kept and the type that bears it, if that has fewer modes than all.
fn fewer_borne<'a>(s: &'a Schema, sds: usize, name: &[u8]) -> Option<(&'a Sds, &'a Name, usize)> {
    let here = s.sdss.get(&sds)?;
    let (kept, ty) = here.kept(name)?;
    has_fewer(here, ty).then_some((here, kept, ty))
}

pub fn kind(s: &Schema, ty: usize) -> Option<&'static str> {
    Some(match s.types.get(&ty)? {
        Type::Object { .. } => "an object type",
        Type::Attribute { .. } => "an attribute type",
        Type::Link { reverse: None, .. } => "a designation type",
        Type::Link { reverse: Some(_), .. } => "a paired type",
    })
}

fn add_setting(traits: &mut Traits, s: &Schema, sds: usize, name: &[u8], modes: Modes) {
    let is_over = [modes.usage, modes.definition].map(|set| set > Modes::FIVE);
    let is_unknown = !modes.are_known();
    for (numbers, what) in [(&[2], "2"), (&[3], "3"), (&[4], "4")] {
        traits.add(true, numbers, what);
        traits.add(is_unknown, numbers, &format!("{what}, before 19"));
    }
    let here = s.sdss.get(&sds);
    let ty = here.and_then(|here| here.find(name));
    let is_low = |set: usize| set <= Modes::FIVE || set > 255 && set % 256 <= Modes::FIVE;
    traits.add(true, &[19], "19");
    traits.add(is_over == [true, false], &[19], "19, by usage alone");
    traits.add(is_over == [false, true], &[19], "19, by definition alone");
    traits.add(is_over == [true, true], &[19], "19, by both");
    traits.add([modes.usage, modes.definition].contains(&(Modes::FIVE + 1)), &[19], "19, by 32");
    traits.add(is_low(modes.usage) && is_low(modes.definition), &[19], "19, by its high bytes alone");
    traits.add(ty.is_none(), &[19], "19, before 6");
    traits.add(true, &[6], "6");
    traits.add(s.sdss.values().any(|other| other.find(name).is_some()), &[6], "6, borne in another SDS");
    traits.add(true, &[0], "0");
    let (Some(here), Some(ty)) = (here, ty) else { return };
    match (s.reverse(ty), kind(s, ty)) {
        (Some(reverse), _) => {
            let by = if ty < reverse { "forward" } else { "reverse" };
            traits.add(true, &[0], &format!("0, a pair by its {by} name"));
            let rows: Vec<usize> =
                (0..).zip(here.types()).filter(|(_, n)| [ty, reverse].contains(n)).map(|(row, _)| row).collect();
            let rows_are = if rows[1] == rows[0] + 1 { "neighbouring rows" } else { "rows apart" };
            traits.add(true, &[0], &format!("0, a pair in {rows_are}"));
        }
        (None, kind) => traits.add(true, &[0], &format!("0, {}", kind.unwrap_or_default())),
    }
    let old = here.modes_of(ty).expect("found above");
    let is_another = [old.usage != modes.usage, old.definition != modes.definition];
    traits.add(modes.usage == 0 || modes.definition == 0, &[0], "0, to the empty set");
    traits.add(modes == Modes::NONE, &[0], "0, to both empty");
    traits.add(old == modes, &[0], "0, to what it was");
    traits.add(is_another == [true, false], &[0], "0, usage alone");
    traits.add(is_another == [false, true], &[0], "0, definition alone");
    let mut elsewhere =
        s.sdss.iter().filter(|(&other, _)| other != sds).filter_map(|(_, other)| other.modes_of(ty));
    traits.add(elsewhere.any(|other| other != modes), &[0], "0, not in another SDS");
}

fn add_question(traits: &mut Traits, s: &Schema, list: &[u8], ty: usize) {
    let listed: Vec<&Sds> = list.iter().filter_map(|&sds| s.sdss.get(&sds.into())).collect();
    let held: Vec<Modes> = listed.iter().filter_map(|sds| sds.modes_of(ty)).collect();
    let has_repeat = (1..list.len()).any(|n| list[..n].contains(&list[n]));
    traits.add(true, &[2], "2");
    traits.add(true, &[6], "6");
    traits.add(list.is_empty(), &[6], "6, an empty list");
    traits.add(!list.is_empty() && s.types.contains_key(&ty), &[6], "6, in SDSs not listed");
    traits.add(has_repeat, &[6], "6, before 8");
    traits.add(true, &[8], "8");
    traits.add(true, &[0], "0");
    traits.add(true, &[0], &format!("0, {}", kind(s, ty).unwrap_or_default()));
    traits.add(ty == 0 && list.contains(&0), &[0], "0, type 0 in SDS 0");
    let union = held.iter().copied().fold(Modes::NONE, Modes::union);
    traits.add(union == Modes::NONE, &[0], "0, both empty");
    traits.add(held.len() == 1 && list.len() > 1, &[0], "0, in one of several listed");
    traits.add(held.len() > 1, &[0], "0, in two or more listed");
    traits.add(held.iter().all(|modes| modes.usage != union.usage), &[0], "0, a usage more than each");
    traits.add(
        held.iter().all(|modes| modes.definition != union.definition),
        &[0],
        "0, a definition more than each",
    );
    traits.add(held.first() != Some(&union), &[0], "0, more than the first listed");
    let all = s.sdss.values().filter_map(|sds| sds.modes_of(ty)).fold(Modes::NONE, Modes::union);
    traits.add(all != union, &[0], "0, more in an SDS not listed");
}

/// Two sets, each of all modes or none, of one or of any; at times both of none.
pub fn any(random: &mut Random) -> Modes {
    if random.one_in(8) {
        return Modes::NONE;
    }
    let [usage, definition] = [(); 2].map(|()| match random.below(4) {
        0 if random.one_in(2) => Modes::FIVE,
        0 => 0,
        1 | 2 => 1 << random.below(5),
        _ => random.below(Modes::FIVE + 1),
    });
    Modes { usage, definition }
}

/// Gives every presence but that in SDS 0 any modes, and a pair the same.
pub fn give(random: &mut Random, s: &mut Schema) {
    for sds in s.used().into_iter().skip(1) {
        let types: Vec<usize> = s.sdss[&sds.into()].types().collect();
        for ty in types {
            let (both, modes) = (s.with_reverse(ty), any(random));
            s.sdss.get_mut(&sds.into()).expect("a used SDS").set_modes(&both, modes);
        }
    }
}

/// A schema as spellings have it, with any modes, and mostly with nothing in the way of a removal.
pub fn draw(random: &mut Random) -> Schema {
    let mut s = spellings::draw(random);
    if !random.one_in(8) {
        for here in s.sdss.values_mut() {
            here.applications.clear();
            here.ends.clear();
        }
    }
    give(random, &mut s);
    s
}

/// A call that sets modes, asks for them, or should keep, renew or take them away.
pub fn call(random: &mut Random, s: &Schema) -> Call {
    let used: Vec<usize> = s.sdss.range(1..).map(|(&sds, _)| sds).collect();
    let sds = random.pick(&used).expect("four are drawn");
    let here = &s.sdss[&sds];
    match random.below(20) {
        0..=5 => setting(random, s),
        6..=10 => question(random, s),
        11 | 12 => Call::Rename { sds, name: borne(random, s, here), new_name: Text(free_name(random, here)) },
        13..=15 => Call::RemoveType { sds, name: borne(random, s, here) },
        _ => import(random, s, sds),
    }
}

/// A name borne in the SDS, as often that of an object, an attribute or a designation type, and twice as often that of
/// one of a pair; a free one where there is none of the kind.
fn borne(random: &mut Random, s: &Schema, here: &Sds) -> Text {
    let kinds = ["an object type", "an attribute type", "a designation type", "a paired type", "a paired type"];
    let wanted = random.pick(&kinds);
    let of_kind = here.named.iter().filter(|(_, present)| kind(s, present.ty) == wanted);
    let names: Vec<&Name> = of_kind.map(|(name, _)| name).collect();
    match random.pick(&names) {
        Some(name) if random.one_in(4) => Text(random.respelt(name)),
        Some(name) => name.into(),
        None => Text(free_name(random, here)),
    }
}

/// Sets to set: any, those that were or one of these; an unknown mode in the one, the other or both.
fn sets(random: &mut Random, old: Modes) -> Modes {
    let known = any(random);
    let mut unknown = || loop {
        let number = random.odd_number(Modes::FIVE + 1);
        if number > Modes::FIVE {
            return number;
        }
    };
    let [usage, definition] = [unknown(), unknown()];
    match random.below(16) {
        0 | 1 => Modes { usage, ..known },
        2 | 3 => Modes { definition, ..known },
        4 | 5 => Modes { usage, definition },
        6 => old,
        7 => Modes { usage: known.usage, ..old },
        8 => Modes { definition: known.definition, ..old },
        9 => Modes::NONE,
        _ => known,
    }
}

fn setting(random: &mut Random, s: &Schema) -> Call {
    let used: Vec<usize> = s.sdss.range(1..).map(|(&sds, _)| sds).collect();
    let sds = match random.below(12) {
        0 => 0,
        1 | 2 => random.odd_number(Schema::SDSS),
        _ => random.pick(&used).expect("four are drawn"),
    };
    let here = s.sdss.get(&sds).unwrap_or(&s.sdss[&0]);
    let name = match random.below(12) {
        0 | 1 => random.pick(&MALFORMED).expect("there are some").into(),
        2 | 3 => Text(free_name(random, here)),
        _ => borne(random, s, here),
    };
    let old = here.find(&name.0).and_then(|ty| here.modes_of(ty)).unwrap_or(Modes::ALL);
    let Modes { usage, definition } = sets(random, old);
    Call::SetModes { sds, name, usage, definition }
}

/// About a type of any kind, mostly a visible one, under one SDS or several, in any order; at times under none, or with
/// one twice or unknown.
fn question(random: &mut Random, s: &Schema) -> Call {
    let mut schema = random.shuffled(s.used());
    let count = random.below(schema.len() + 1);
    schema.truncate(if random.one_in(16) { 0 } else { count.max(1) });
    let list = schema.clone();
    match random.below(12) {
        0 | 1 => schema.extend(random.pick(&list)),
        2 => schema.insert(random.below(list.len() + 1), random.byte()),
        _ => {}
    }
    let seen = visible(s, &list);
    let wanted: Vec<usize> = match random.below(5) {
        0 => s.types.keys().copied().filter(|ty| !seen.contains(ty)).collect(),
        _ => seen.into_iter().collect(),
    };
    let ty = match random.pick(&wanted) {
        Some(ty) if !random.one_in(24) => ty,
        _ => random.odd_number(Schema::TYPES),
    };
    Call::Modes { schema, ty }
}

/// An import of what the target lacks, where something is, under names that are free; half of the time of a pair, if
/// may be.
fn import(random: &mut Random, s: &Schema, target: usize) -> Call {
    let all =
        s.sdss.keys().flat_map(|&source| importable(s, target, source).into_iter().map(move |name| (source, name)));
    let all: Vec<(usize, &Name)> = all.collect();
    let is_paired =
        |(source, name): &(usize, &Name)| s.sdss[source].find(name).is_some_and(|ty| s.reverse(ty).is_some());
    let paired: Vec<(usize, &Name)> = all.iter().copied().filter(is_paired).collect();
    let aimed_at = if random.one_in(2) && !paired.is_empty() { &paired } else { &all };
    let Some(found) = random.pick(aimed_at) else { return question(random, s) };
    let to = &s.sdss[&target];
    let new_name = Text(free_name(random, to));
    let new_reverse_name = if is_paired(&found) { free_name(random, to) } else { Vec::new() };
    Call::Import {
        target,
        source: found.0,
        name: found.1.into(),
        new_name,
        new_reverse_name: Text(new_reverse_name),
    }
}

#[cfg(test)]
mod tests {
    use super::{any, MODED};
    use crate::random::Random;
    use crate::run::Run;
    use crate::schema::Modes;
    use crate::{HISTORY, LONG};

    /// A long run has as many histories, and each ends with such calls.
    #[test]
    fn no_mode_is_seldom() {
        let mut run = Run::new(None);
        let seldom = |run: &Run| -> Vec<String> {
            run.counts.seldom().into_iter().filter(|what| what.starts_with("mode: ")).collect()
        };
        assert_eq!(seldom(&run).len(), MODED.len());
        (0..LONG / HISTORY).for_each(|_| run.modes().unwrap());
        assert_eq!(seldom(&run), [""; 0]);
        // Nothing is counted that no floor is asked of.
        assert_eq!(run.counts.moded.len(), MODED.len());
    }

    #[test]
    fn every_set_is_drawn() {
        let mut random = Random::new(1);
        let drawn: Vec<Modes> = (0..2000).map(|_| any(&mut random)).collect();
        for set in 0..=Modes::FIVE {
            assert!(
                drawn.iter().any(|modes| modes.usage == set) && drawn.iter().any(|modes| modes.definition == set)
            );
        }
        assert!(drawn.iter().all(|modes| modes.are_known()));
    }
}
