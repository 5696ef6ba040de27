//! Schemas in which types descend as random calls seldom make them, and questions about that. No calls make these
//! schemas: a new type gets the lowest number, and its parents are there.
#![forbid(unsafe_code)]

use crate::calls::Call;
use crate::random::Random;
use crate::schema::{End, Name, Presence, Schema, Sds, Side, Type, DESIGNATION};
use std::collections::BTreeSet;

type Shape = fn(&mut Random) -> Schema;

pub const SHAPES: [(&str, Shape); 4] =
    [("chain", chain), ("lower numbers", lower_numbers), ("diamonds", diamonds), ("held by one", held_by_one)];

/// All types one chain, in one SDS, and at times an upper part of it in another.
fn chain(random: &mut Random) -> Schema {
    let mut drawn = Drawn::new(1 + random.below(2), 1 + random.below(Schema::TYPES));
    for ty in in_any_order(random, (1..Schema::TYPES).collect()) {
        drawn.add(random, ty, 0, nearest(&drawn.held[0], 1), 1);
    }
    drawn.schema(random)
}

/// Each type has a lower number than its parents, but for type 0.
fn lower_numbers(random: &mut Random) -> Schema {
    let mut drawn = Drawn::new(1 + random.below(3), 8);
    let reach = 1 + random.below(16);
    let mut falling = some_numbers(random);
    falling.sort_by(|one, other| other.cmp(one));
    for ty in falling {
        drawn.add(random, ty, 0, nearest(&drawn.held[0], reach), 1);
    }
    drawn.schema(random)
}

/// Layers, the types of each with parents in the one above or the two above.
fn diamonds(random: &mut Random) -> Schema {
    let mut drawn = Drawn::new(1 + random.below(3), 8);
    let width = 2 + random.below(5);
    for layer in some_numbers(random).chunks(width) {
        let above = drawn.held[0].clone();
        for &ty in layer {
            let reach = width * (1 + random.below(2));
            drawn.add(random, ty, 0, nearest(&above, reach), 2);
        }
    }
    drawn.schema(random)
}

/// Each type in an SDS of its own choice, and in half of those that hold its parents too.
fn held_by_one(random: &mut Random) -> Schema {
    let sdss = 2 + random.below(Schema::SDSS - 2);
    let numbers = some_numbers(random);
    spread(random, sdss, &numbers).schema(random)
}

/// The same with these types, before the SDSs have numbers and the types names.
pub fn spread(random: &mut Random, sdss: usize, numbers: &[usize]) -> Drawn {
    let mut drawn = Drawn::new(sdss, 2);
    for &ty in numbers {
        // Room for this type and a link type in every SDS.
        if 1 + drawn.held.concat().len() + 2 * sdss <= Schema::PRESENCES {
            let sds = random.below(sdss);
            drawn.add(random, ty, sds, nearest(&drawn.held[sds], 8), 1);
        }
    }
    drawn
}

/// Numbers of types in no order; some are left.
fn some_numbers(random: &mut Random) -> Vec<usize> {
    let mut numbers = random.shuffled((1..Schema::TYPES).collect());
    numbers.truncate(24 + random.below(96));
    numbers
}

/// The last of the types, so many if there are.
fn nearest(types: &[usize], reach: usize) -> Vec<usize> {
    types[types.len().saturating_sub(reach)..].to_vec()
}

/// Rising, falling or neither.
pub fn in_any_order<T>(random: &mut Random, rising: Vec<T>) -> Vec<T> {
    match random.below(3) {
        0 => rising,
        1 => rising.into_iter().rev().collect(),
        _ => random.shuffled(rising),
    }
}

/// A schema on its way.
pub struct Drawn {
    pub types: Vec<(usize, Type)>,
    /// What each SDS but SDS 0 holds, no type before its parents.
    pub held: Vec<Vec<usize>>,
    /// An SDS that holds a type's parents lacks it one time in so many.
    lacking: usize,
}

impl Drawn {
    fn new(sdss: usize, lacking: usize) -> Drawn {
        Drawn { types: Vec::new(), held: vec![vec![0]; sdss], lacking }
    }

    /// A type in the SDS, with parents out of some that this holds, at least so many if there are. Others that hold the
    /// parents may hold it too: an SDS that holds a type holds its parents.
    fn add(&mut self, random: &mut Random, ty: usize, sds: usize, above: Vec<usize>, least: usize) {
        let count = least + random.below(Schema::PARENTS + 1 - least);
        let parents: BTreeSet<usize> = random.shuffled(above).into_iter().take(count).collect();
        self.put(random, sds, &parents.clone(), vec![(ty, Type::Object { parents })]);
    }

    /// Types that are present together, in the SDS, and if may be in others that hold all that is above them.
    pub fn put(&mut self, random: &mut Random, sds: usize, above: &BTreeSet<usize>, group: Vec<(usize, Type)>) {
        for (other, held) in self.held.iter_mut().enumerate() {
            let may_hold = above.iter().all(|parent| held.contains(parent));
            if other == sds || may_hold && !random.one_in(self.lacking) {
                held.extend(group.iter().map(|(ty, _)| ty));
            }
        }
        self.types.extend(group);
    }

    /// The SDSs have any numbers, and the presences of each any order of names, which is that of the rows.
    fn schema(self, random: &mut Random) -> Schema {
        let mut s = Schema::fresh();
        s.types.extend(self.types);
        for (sds, held) in random.shuffled((1..Schema::SDSS).collect()).into_iter().zip(self.held) {
            let mut here = Sds::new(format!("sds{sds}").as_bytes());
            let names = (0..held.len()).map(|n| Name::new(format!("type_{n:03}"))).collect();
            here.named.extend(in_any_order(random, names).into_iter().zip(held.into_iter().map(Presence::of)));
            s.sdss.insert(sds, here);
        }
        add_link(&mut s, random);
        s
    }
}

/// If a number is left, a designation type in every SDS but SDS 0, with an origin and a destination in each.
fn add_link(s: &mut Schema, random: &mut Random) {
    let Some(link) = (1..Schema::TYPES).find(|ty| !s.types.contains_key(ty)) else { return };
    s.types.insert(link, Type::Link { category: DESIGNATION, reverse: None });
    for (_, here) in s.sdss.range_mut(1..) {
        let objects: Vec<usize> = here.types().collect();
        for side in [Side::Origin, Side::Destination] {
            here.ends.insert(End { link, side, object: random.pick(&objects).expect("there is type 0") });
        }
        here.named.insert(Name::new("link"), Presence::of(link));
    }
}

/// What is visible under a list of used SDSs.
pub fn visible(s: &Schema, list: &[u8]) -> BTreeSet<usize> {
    list.iter().flat_map(|&sds| s.sdss[&sds.into()].types()).collect()
}

/// A question about descent under some of the SDSs, mostly about a visible type: type 0, one right below it, or any.
pub fn question(random: &mut Random, s: &Schema) -> Call {
    let mut schema = random.shuffled(s.used());
    schema.truncate(1 + random.below(schema.len()));
    let types: Vec<usize> = match random.below(16) {
        0 => s.types.keys().copied().collect(),
        _ => visible(s, &schema).into_iter().collect(),
    };
    let mut ty = random.pick(&types).expect("every SDS holds type 0");
    if random.one_in(8) {
        ty = 0;
    } else if random.one_in(2) {
        let above = |ty| s.parents(ty).into_iter().filter(|&parent| parent != 0).collect::<Vec<_>>();
        while let Some(parent) = random.pick(&above(ty)) {
            ty = parent;
        }
    }
    match (random.below(10), s.types.keys().find(|&&ty| s.is_link(ty))) {
        (0, Some(&link)) => Call::ScanLink { schema, ty: link, code: 1 + 2 * random.below(2) },
        (1, _) => Call::ScanObject { schema, ty, code: 0 },
        (2, _) => Call::Depth { schema, ty },
        (3..6, _) => Call::DescendantSet { schema, ty },
        _ => Call::ScanObject { schema, ty, code: 1 },
    }
}

#[cfg(test)]
mod tests {
    use super::SHAPES;
    use crate::base::{is_sound, to_bytes};
    use crate::random::Random;
    use crate::run::Run;
    use crate::schema::Schema;
    use crate::{HISTORY, LONG};

    fn is_as_called(s: &Schema, name: &str) -> bool {
        let mut objects = (1..Schema::TYPES).filter(|&ty| s.is_object(ty)).map(|ty| (ty, s.parents(ty)));
        match name {
            "chain" => objects.any(|(ty, _)| s.longest_way_up(ty) == Schema::TYPES - 1),
            "lower numbers" => objects.all(|(ty, parents)| parents.iter().all(|&up| up == 0 || up > ty)),
            "diamonds" => objects.all(|(_, parents)| parents == [0].into() || parents.len() > 1),
            _ => objects.any(|(ty, parents)| {
                let mut others = s.sdss.range(1..).filter(|(_, sds)| !sds.holds(ty));
                others.any(|(_, sds)| parents.iter().all(|&up| sds.holds(up)))
            }),
        }
    }

    #[test]
    fn every_shape_is_sound_and_as_called() {
        let mut random = Random::new(1);
        for (name, draw) in SHAPES {
            for s in (0..200).map(|_| draw(&mut random)) {
                assert!(is_sound(&to_bytes(&s)) && is_as_called(&s, name), "{name}");
            }
        }
    }

    /// A long run has as many histories, and each asks about every shape.
    #[test]
    fn no_descent_is_seldom() {
        let mut run = Run::new(None);
        let seldom = |run: &Run| run.counts.seldom().iter().filter(|what| what.starts_with("descent")).count();
        assert_eq!(seldom(&run), 9);
        (0..LONG / HISTORY).for_each(|_| run.descents().unwrap());
        assert_eq!(seldom(&run), 0);
    }
}
