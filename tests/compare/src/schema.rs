//! The keeper's state in plain collections: document 01, "Things in a base". Nothing here is about bytes of a base.
//!
//! Numbers are `usize` throughout, as callers give them: 2^32 + n is then never found where n is.
#![forbid(unsafe_code)]

use std::cmp::Ordering;
use std::collections::{BTreeMap, BTreeSet};
use std::ops::Deref;

/// A name as it is spelt, which is kept and shown. Two are equal when they are byte for byte; whether they are the same
/// name is for `is_same` to say.
#[derive(Clone, Debug, PartialEq, Eq)]
pub struct Name(pub Vec<u8>);

impl Name {
    pub fn new(bytes: impl AsRef<[u8]>) -> Name {
        Name(bytes.as_ref().to_vec())
    }
}

impl Deref for Name {
    type Target = [u8];

    fn deref(&self) -> &[u8] {
        &self.0
    }
}

impl AsRef<[u8]> for Name {
    fn as_ref(&self) -> &[u8] {
        &self.0
    }
}

/// The order in which an SDS has its names: that of the lowered names, and of the spellings where these agree.
impl Ord for Name {
    fn cmp(&self, other: &Name) -> Ordering {
        lowered(self).cmp(lowered(other)).then_with(|| self.0.cmp(&other.0))
    }
}

impl PartialOrd for Name {
    fn partial_cmp(&self, other: &Name) -> Option<Ordering> {
        Some(self.cmp(other))
    }
}

/// The bytes with A to Z brought to a to z, and no other changed (02, Q-5).
pub fn lowered(name: &[u8]) -> impl Iterator<Item = u8> + '_ {
    name.iter().map(u8::to_ascii_lowercase)
}

/// Whether two names are the same, however they are spelt.
pub fn is_same(name: &[u8], other: &[u8]) -> bool {
    lowered(name).eq(lowered(other))
}

/// Whether two of the names are the same.
pub fn has_same<'a>(names: impl IntoIterator<Item = &'a [u8]>) -> bool {
    let mut seen = BTreeSet::new();
    !names.into_iter().all(|name| seen.insert(lowered(name).collect::<Vec<u8>>()))
}

/// Names are 1 to 16 bytes: ASCII letters, digits and underscore, beginning with a letter.
pub fn is_name(bytes: &[u8]) -> bool {
    (1..=Schema::NAME).contains(&bytes.len())
        && bytes[0].is_ascii_alphabetic()
        && bytes.iter().all(|b| b.is_ascii_alphanumeric() || *b == b'_')
}

/// Value kinds are 0 to 5: boolean, integer, natural, float, time, string.
pub const LAST_VALUE_KIND: usize = 5;

/// Categories are 0 to 4: composition, existence, reference, implicit, designation.
pub const IMPLICIT: usize = 3;
pub const DESIGNATION: usize = 4;

/// What belongs to a type; the same in every SDS.
#[derive(Clone, Debug, PartialEq, Eq)]
pub enum Type {
    Object { parents: BTreeSet<usize> },
    Attribute { value_kind: usize },
    Link { category: usize, reverse: Option<usize> },
}

/// What may be done through a presence: two sets of modes, each the sum of those in it out of create 1, delete 2, read
/// 4, write 8 and navigate 16 (02, Q-2).
#[derive(Clone, Copy, Debug, PartialEq, Eq, PartialOrd, Ord)]
pub struct Modes {
    pub usage: usize,
    pub definition: usize,
}

impl Modes {
    /// All five in a set, which is the greatest sum.
    pub const FIVE: usize = 31;
    pub const NONE: Modes = Modes { usage: 0, definition: 0 };
    pub const ALL: Modes = Modes { usage: Modes::FIVE, definition: Modes::FIVE };

    /// Whether no mode is unknown.
    pub fn are_known(self) -> bool {
        self.usage <= Modes::FIVE && self.definition <= Modes::FIVE
    }

    pub fn union(self, other: Modes) -> Modes {
        Modes { usage: self.usage | other.usage, definition: self.definition | other.definition }
    }
}

/// A type is in an SDS, and what may be done through that.
#[derive(Clone, Copy, Debug, PartialEq, Eq)]
pub struct Presence {
    pub ty: usize,
    pub modes: Modes,
}

impl Presence {
    /// As it is made or imported: with all modes.
    pub fn of(ty: usize) -> Presence {
        Presence { ty, modes: Modes::ALL }
    }
}

/// An attribute type is applied to an object or link type.
#[derive(Clone, Copy, Debug, PartialEq, Eq, PartialOrd, Ord)]
pub struct Application {
    pub to: usize,
    pub attribute: usize,
}

#[derive(Clone, Copy, Debug, PartialEq, Eq, PartialOrd, Ord)]
pub enum Side {
    Origin,
    Destination,
}

/// An object type is an origin or a destination of a link type.
#[derive(Clone, Copy, Debug, PartialEq, Eq, PartialOrd, Ord)]
pub struct End {
    pub link: usize,
    pub side: Side,
    pub object: usize,
}

impl End {
    /// The end that the reverse of the link type has, exactly when the link type has this one.
    pub fn mirror(self, reverse: usize) -> End {
        let side = match self.side {
            Side::Origin => Side::Destination,
            Side::Destination => Side::Origin,
        };
        End { link: reverse, side, ..self }
    }
}

/// An SDS with all that is said within it.
#[derive(Clone, Debug, PartialEq, Eq)]
pub struct Sds {
    pub name: Name,
    /// The presences without a local name, each a type with its modes (02, Q-8).
    pub nameless: BTreeMap<usize, Modes>,
    /// All others. Local names are unique in an SDS, in whatever spelling.
    pub named: BTreeMap<Name, Presence>,
    pub applications: BTreeSet<Application>,
    pub ends: BTreeSet<End>,
}

impl Sds {
    pub fn new(name: &[u8]) -> Sds {
        Sds {
            name: Name::new(name),
            nameless: BTreeMap::new(),
            named: BTreeMap::new(),
            applications: BTreeSet::new(),
            ends: BTreeSet::new(),
        }
    }

    /// The type that bears the local name, in whatever spelling; never one that is nameless.
    pub fn find(&self, name: &[u8]) -> Option<usize> {
        self.kept(name).map(|(_, ty)| ty)
    }

    /// The spelling that is kept of the local name, and the type that bears it.
    pub fn kept(&self, name: &[u8]) -> Option<(&Name, usize)> {
        self.named.iter().find(|(kept, _)| is_same(kept, name)).map(|(kept, present)| (kept, present.ty))
    }

    /// The local name of the type as it is spelt, if it is present and has one.
    pub fn name_of(&self, ty: usize) -> Option<&Name> {
        self.named.iter().find(|(_, present)| present.ty == ty).map(|(name, _)| name)
    }

    /// All presences in the order of their rows: nameless ones by type, then the others by name.
    pub fn presences(&self) -> impl Iterator<Item = Presence> + '_ {
        let nameless = self.nameless.iter().map(|(&ty, &modes)| Presence { ty, modes });
        nameless.chain(self.named.values().copied())
    }

    /// The types present, in that order.
    pub fn types(&self) -> impl Iterator<Item = usize> + '_ {
        self.presences().map(|present| present.ty)
    }

    /// The modes of the type, if it is present.
    pub fn modes_of(&self, ty: usize) -> Option<Modes> {
        self.presences().find(|present| present.ty == ty).map(|present| present.modes)
    }

    /// Gives the types that are present these modes.
    pub fn set_modes(&mut self, types: &[usize], modes: Modes) {
        let nameless = self.nameless.iter_mut().map(|(&ty, modes)| (ty, modes));
        let named = self.named.values_mut().map(|present| (present.ty, &mut present.modes));
        let set = nameless.chain(named).filter(|(ty, _)| types.contains(ty));
        set.for_each(|(_, old)| *old = modes);
    }

    pub fn is_empty(&self) -> bool {
        self.presences().next().is_none()
    }

    pub fn holds(&self, ty: usize) -> bool {
        self.types().any(|present| present == ty)
    }

    /// Takes the presence of the type away, if there is one.
    pub fn take_away(&mut self, ty: usize) {
        self.nameless.remove(&ty);
        self.named.retain(|_, present| present.ty != ty);
    }
}

#[derive(Clone, Debug, PartialEq, Eq)]
pub struct Schema {
    pub sdss: BTreeMap<usize, Sds>,
    pub types: BTreeMap<usize, Type>,
}

impl Schema {
    pub const NAME: usize = 16;
    pub const PARENTS: usize = 4;
    pub const SDSS: usize = 16;
    pub const TYPES: usize = 128;
    pub const PRESENCES: usize = 512;
    pub const APPLICATIONS: usize = 256;
    pub const ENDS: usize = 512;

    /// SDS 0 "system", holding type 0 "object", and nothing else.
    pub fn fresh() -> Schema {
        let mut system = Sds::new(b"system");
        system.named.insert(Name::new("object"), Presence::of(0));
        let object = Type::Object { parents: BTreeSet::new() };
        Schema { sdss: BTreeMap::from([(0, system)]), types: BTreeMap::from([(0, object)]) }
    }

    /// The used SDSs, as a list has them.
    pub fn used(&self) -> Vec<u8> {
        self.sdss.keys().map(|&sds| sds as u8).collect()
    }

    pub fn is_object(&self, ty: usize) -> bool {
        matches!(self.types.get(&ty), Some(Type::Object { .. }))
    }

    pub fn is_attribute(&self, ty: usize) -> bool {
        matches!(self.types.get(&ty), Some(Type::Attribute { .. }))
    }

    pub fn is_link(&self, ty: usize) -> bool {
        matches!(self.types.get(&ty), Some(Type::Link { .. }))
    }

    /// The reverse of a link type; a designation type, like a type of another kind, has none.
    pub fn reverse(&self, ty: usize) -> Option<usize> {
        match self.types.get(&ty) {
            Some(Type::Link { reverse, .. }) => *reverse,
            _ => None,
        }
    }

    /// The parents of an object type; a type of another kind has none.
    pub fn parents(&self, ty: usize) -> BTreeSet<usize> {
        match self.types.get(&ty) {
            Some(Type::Object { parents }) => parents.clone(),
            _ => BTreeSet::new(),
        }
    }

    pub fn children(&self, ty: usize) -> BTreeSet<usize> {
        let is_child = |kind: &Type| matches!(kind, Type::Object { parents } if parents.contains(&ty));
        self.types.iter().filter(|(_, kind)| is_child(kind)).map(|(&child, _)| child).collect()
    }

    /// What parents reach from the type in one or more steps.
    pub fn ancestors(&self, ty: usize) -> BTreeSet<usize> {
        reached(ty, |ty| self.parents(ty))
    }

    /// The types that the type is an ancestor of.
    pub fn descendants(&self, ty: usize) -> BTreeSet<usize> {
        reached(ty, |ty| self.children(ty))
    }

    /// The greatest number of parent steps from the type up to type 0. Only type 0 has no parents, so every way up
    /// ends there, and the longest one is over when no type is left that takes exactly so many steps.
    pub fn longest_way_up(&self, ty: usize) -> usize {
        let step = |types: &BTreeSet<usize>| -> BTreeSet<usize> {
            types.iter().flat_map(|&ty| self.parents(ty)).collect()
        };
        let mut after_steps = step(&BTreeSet::from([ty]));
        let mut depth = 0;
        while !after_steps.is_empty() {
            depth += 1;
            after_steps = step(&after_steps);
        }
        depth
    }

    pub fn presence_count(&self) -> usize {
        self.sdss.values().map(|sds| sds.presences().count()).sum()
    }

    pub fn application_count(&self) -> usize {
        self.sdss.values().map(|sds| sds.applications.len()).sum()
    }

    pub fn end_count(&self) -> usize {
        self.sdss.values().map(|sds| sds.ends.len()).sum()
    }
}

/// What one or more steps reach from a type.
fn reached(from: usize, step: impl Fn(usize) -> BTreeSet<usize>) -> BTreeSet<usize> {
    let mut reached = BTreeSet::new();
    let mut open = step(from);
    while let Some(ty) = open.pop_first() {
        if reached.insert(ty) {
            open.extend(step(ty));
        }
    }
    reached
}
