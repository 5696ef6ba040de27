//! Names in more than one spelling (02, Q-5): schemas drawn for them, calls that give a name as it is not kept, and what
//! tells one such call from another.
#![forbid(unsafe_code)]

use crate::calls::{Call, Text};
use crate::coverage::Traits;
use crate::random::{importable, Random, BESIDE_LETTERS, CASE};
use crate::removals;
use crate::schema::{has_same, is_name, is_same, lowered, Name, Schema, Sds};
use std::iter::zip;

/// What should come up often. Where names were compared byte for byte, or set in order by their bytes or as capitals, the
/// answer or the base would be another.
pub const SPELT: [&str; 60] = [
    // Taken in another spelling, and for no other reason.
    "new_sds 11",
    "new_sds 11, SDS 0",
    "new_object 11",
    "new_attribute 11",
    "new_designation 11",
    "new_pair 11, the first name",
    "new_pair 11, the second name",
    "new_pair 11, the two alike",
    "import 11, a given name",
    "import 11, a filled name",
    "import 11, a given reverse name",
    "import 11, a filled reverse name",
    "import 11, the two alike",
    "rename 11",
    // A parent twice.
    "new_object 8",
    // Found in another spelling.
    "find 0",
    "new_object 0, a parent",
    "import 0, its name",
    "apply 0, the first name",
    "apply 0, the second name",
    "unapply 0, the first name",
    "unapply 0, the second name",
    "apply_link 0, the first name",
    "apply_link 0, the second name",
    "unapply_link 0, the first name",
    "unapply_link 0, the second name",
    "add_destination 0, the first name",
    "add_destination 0, the second name",
    "remove_destination 0, the first name",
    "remove_destination 0, the second name",
    "apply 9",
    "unapply 13",
    "apply_link 9",
    "unapply_link 13",
    "remove_type 0",
    "remove_type 16 to 18",
    "set_modes 0",
    // The spelling that is kept.
    "import 0, capitals filled in",
    "import 0, the reverse's capitals filled in",
    "import 0, filled in as kept and not as asked for",
    "rename 0, by another spelling",
    "rename 0, the spelling alone",
    "rename 0, both names in one other spelling",
    "rename 0, by another spelling to the one kept",
    "name 0, with a capital",
    // Which letters, and no other bytes.
    "A alone",
    "Z alone",
    "the first of 16 alone",
    "the last of 16 alone",
    "find 6, but for a byte",
    "new_attribute 0, but for a byte",
    "4, a byte beside the letters",
    // The place of the row.
    "new_object 0, elsewhere by bytes",
    "new_attribute 0, elsewhere by bytes",
    "new_designation 0, elsewhere by bytes",
    "new_pair 0, elsewhere by bytes",
    "import 0, elsewhere by bytes",
    "rename 0, elsewhere by bytes",
    "elsewhere by capitals",
    "name 0, elsewhere by bytes",
];

/// Numbers that a call comes to only when it has looked for its names.
const LOOKED: &[usize] = &[0, 8, 9, 11, 13, 16, 17, 18];

/// The traits of a call on the schema, before it is made.
pub fn add_traits(traits: &mut Traits, s: &Schema, call: &Call) {
    traits.add_call(s, call);
    for (names, name) in given(s, call) {
        traits.add_name(&names, name);
    }
}

/// The names that a call gives, each with those among which it is looked for.
fn given<'a>(s: &'a Schema, call: &'a Call) -> Vec<(Vec<&'a Name>, &'a [u8])> {
    let local = |sds: usize, name: &'a [u8]| {
        let names = s.sdss.get(&sds).map_or(Vec::new(), |here| here.named.keys().collect());
        (names, name)
    };
    match call {
        Call::NewSds { name } => vec![(s.sdss.values().map(|sds| &sds.name).collect(), &name.0)],
        Call::NewObject { sds, name, parents } => {
            let parents = parents.0.split(|&byte| byte == b' ');
            parents.chain([&name.0[..]]).map(|name| local(*sds, name)).collect()
        }
        Call::Import { target, source, name, new_name, new_reverse_name } => {
            vec![local(*source, &name.0), local(*target, &new_name.0), local(*target, &new_reverse_name.0)]
        }
        Call::Find { schema, name } => schema.iter().map(|&sds| local(sds.into(), &name.0)).collect(),
        Call::NewAttribute { sds, .. }
        | Call::NewDesignation { sds, .. }
        | Call::RemoveType { sds, .. }
        | Call::NewPair { sds, .. }
        | Call::Apply { sds, .. }
        | Call::Unapply { sds, .. }
        | Call::ApplyLink { sds, .. }
        | Call::UnapplyLink { sds, .. }
        | Call::AddDestination { sds, .. }
        | Call::RemoveDestination { sds, .. }
        | Call::Rename { sds, .. }
        | Call::RenameNumber { sds, .. }
        | Call::SetModes { sds, .. } => {
            let slices = call.inputs().1;
            slices.into_iter().filter(|slice| !slice.is_empty()).map(|name| local(*sds, name)).collect()
        }
        _ => Vec::new(),
    }
}

/// Whether the name is the same in another spelling.
fn is_respelt(kept: &[u8], name: &[u8]) -> bool {
    is_same(kept, name) && kept != name
}

/// Whether the name is borne in the SDS in another spelling.
fn is_otherwise(here: &Sds, name: &[u8]) -> bool {
    here.kept(name).is_some_and(|(kept, _)| is_respelt(kept, name))
}

fn has_capital(name: &[u8]) -> bool {
    name.iter().any(u8::is_ascii_uppercase)
}

/// Where the two, of one length and lowered, differ, if that is in one place.
fn only_difference(kept: &[u8], name: &[u8]) -> Option<usize> {
    let mut places = zip(lowered(kept), lowered(name)).enumerate().filter(|(_, (kept, name))| kept != name);
    let place = places.next().filter(|_| kept.len() == name.len())?;
    places.next().is_none().then_some(place.0)
}

/// Whether the name differs from another in one byte: one beside the letters, or one that the bit of the case tells from
/// what is there, though that is no letter.
fn is_beside(kept: &[u8], name: &[u8]) -> bool {
    only_difference(kept, name).is_some_and(|at| BESIDE_LETTERS.contains(&name[at]) || name[at] == kept[at] ^ CASE)
}

/// Whether a row for the name, among those of the SDS but for one type's, has another place where a key sets the order.
fn is_elsewhere(here: &Sds, moved: Option<usize>, name: &[u8], key: fn(&[u8]) -> Vec<u8>) -> bool {
    let (name, by_key) = (Name::new(name), key(name));
    let others = || here.named.iter().filter(|(_, present)| Some(present.ty) != moved).map(|(kept, _)| kept);
    others().filter(|kept| **kept < name).count() != others().filter(|kept| key(kept) < by_key).count()
}

fn bytes(name: &[u8]) -> Vec<u8> {
    name.to_vec()
}

fn capitals(name: &[u8]) -> Vec<u8> {
    name.to_ascii_uppercase()
}

/// Why new names are taken: the first or the second is borne in another spelling, or the two are the same in two
/// spellings. All of these where one is taken byte for byte.
fn taken(here: &Sds, first: &[u8], second: Option<&[u8]>) -> [bool; 3] {
    let is_borne = |name: &[u8]| here.named.contains_key(&Name::new(name));
    if is_borne(first) || second.is_some_and(|second| is_borne(second) || second == first) {
        return [true; 3];
    }
    let of_second = second.map_or([false; 2], |second| [is_otherwise(here, second), is_same(first, second)]);
    [is_otherwise(here, first), of_second[0], of_second[1]]
}

impl Traits {
    /// What sets a name that is given off from one that is there.
    fn add_name(&mut self, names: &[&Name], name: &[u8]) {
        if let Some(kept) = names.iter().find(|kept| is_respelt(kept, name)) {
            let places: Vec<usize> = (0..name.len()).filter(|&at| kept[at] != name[at]).collect();
            let are_all = |letter: u8| places.iter().all(|&at| name[at].eq_ignore_ascii_case(&letter));
            self.add_any(are_all(b'a'), LOOKED, "A alone");
            self.add_any(are_all(b'z'), LOOKED, "Z alone");
            self.add_any(name.len() == Schema::NAME && places == [0], LOOKED, "the first of 16 alone");
            self.add_any(places == [Schema::NAME - 1], LOOKED, "the last of 16 alone");
        }
        let is_missed = !is_name(name) && names.iter().any(|kept| is_beside(kept, name));
        self.add_any(is_missed, &[4], "4, a byte beside the letters");
    }

    fn add_call(&mut self, s: &Schema, call: &Call) {
        let is_nearly =
            |here: &Sds, name: &[u8]| here.named.keys().any(|kept| only_difference(kept, name).is_some());
        match call {
            Call::NewSds { name } => {
                let borne = s.sdss.iter().find(|(_, sds)| is_respelt(&sds.name, &name.0));
                self.add(borne.is_some(), &[11], "11");
                self.add(borne.is_some_and(|(&sds, _)| sds == 0), &[11], "11, SDS 0");
            }
            Call::NewObject { sds, name, parents } => {
                let Some(here) = s.sdss.get(sds) else { return };
                let parents: Vec<&[u8]> = parents.0.split(|&byte| byte == b' ').collect();
                self.add(is_otherwise(here, &name.0), &[11], "11");
                self.add(parents.iter().any(|parent| is_otherwise(here, parent)), &[0], "0, a parent");
                let has_repeat = (1..parents.len()).any(|n| parents[..n].contains(&parents[n]));
                self.add(!has_repeat && has_same(parents), &[8], "8");
                self.add_places(here, None, &[&name.0]);
            }
            Call::NewAttribute { sds, name, .. } | Call::NewDesignation { sds, name } => {
                let Some(here) = s.sdss.get(sds) else { return };
                self.add(is_otherwise(here, &name.0), &[11], "11");
                self.add(is_nearly(here, &name.0), &[0], "0, but for a byte");
                self.add_places(here, None, &[&name.0]);
            }
            Call::NewPair { sds, name, reverse_name, .. } => {
                let Some(here) = s.sdss.get(sds) else { return };
                let why = taken(here, &name.0, Some(&reverse_name.0));
                self.add(why == [true, false, false], &[11], "11, the first name");
                self.add(why == [false, true, false], &[11], "11, the second name");
                self.add(why == [false, false, true], &[11], "11, the two alike");
                self.add_places(here, None, &[&name.0, &reverse_name.0]);
            }
            Call::Import { target, source, name, new_name, new_reverse_name } => {
                let (Some(to), Some(from)) = (s.sdss.get(target), s.sdss.get(source)) else { return };
                self.add_import(s, [to, from], &name.0, [&new_name.0, &new_reverse_name.0]);
            }
            Call::RemoveType { sds, name } => {
                let Some(here) = s.sdss.get(sds) else { return };
                self.add(is_otherwise(here, &name.0), &[0], "0");
                self.add(is_otherwise(here, &name.0), &[16, 17, 18], "16 to 18");
            }
            Call::SetModes { sds, name, .. } => {
                let Some(here) = s.sdss.get(sds) else { return };
                self.add(is_otherwise(here, &name.0), &[0], "0");
            }
            Call::Rename { sds, name, new_name } => {
                let Some(here) = s.sdss.get(sds) else { return };
                self.add_rename(here, &name.0, &new_name.0);
            }
            Call::Find { schema, name } => {
                let listed: Vec<&Sds> = schema.iter().filter_map(|&sds| s.sdss.get(&sds.into())).collect();
                let first = listed.iter().find(|sds| sds.find(&name.0).is_some());
                self.add(first.is_some_and(|sds| is_otherwise(sds, &name.0)), &[0], "0");
                self.add(listed.iter().any(|sds| is_nearly(sds, &name.0)), &[6], "6, but for a byte");
            }
            Call::Name { sds, ty } => {
                let Some(here) = s.sdss.get(sds) else { return };
                let Some(name) = here.name_of(*ty) else { return };
                self.add(has_capital(name), &[0], "0, with a capital");
                self.add(is_elsewhere(here, None, name, bytes), &[0], "0, elsewhere by bytes");
            }
            Call::Apply { sds, .. }
            | Call::Unapply { sds, .. }
            | Call::ApplyLink { sds, .. }
            | Call::UnapplyLink { sds, .. }
            | Call::AddDestination { sds, .. }
            | Call::RemoveDestination { sds, .. } => {
                let Some(here) = s.sdss.get(sds) else { return };
                let [first, second, _] = call.inputs().1.map(|name| is_otherwise(here, name));
                self.add(first, &[0], "0, the first name");
                self.add(second, &[0], "0, the second name");
                self.add(first || second, &[9], "9");
                self.add(first || second, &[13], "13");
            }
            _ => {}
        }
    }

    fn add_import(&mut self, s: &Schema, [to, from]: [&Sds; 2], name: &[u8], [first, second]: [&[u8]; 2]) {
        let Some((kept, ty)) = from.kept(name) else { return };
        let kept_reverse = s.reverse(ty).and_then(|reverse| from.name_of(reverse));
        fn filled<'a>(new_name: &'a [u8], kept: &'a [u8]) -> (&'a [u8], &'static str) {
            match new_name {
                [] => (kept, "filled"),
                given => (given, "given"),
            }
        }
        let (is_blank, is_reverse_blank) = (first.is_empty(), second.is_empty());
        let (first, first_is) = filled(first, kept);
        let (second, second_is) = kept_reverse.map(|kept| filled(second, kept)).unzip();
        let why = taken(to, first, second);
        self.add(why == [true, false, false], &[11], &format!("11, a {first_is} name"));
        self.add(
            why == [false, true, false],
            &[11],
            &format!("11, a {} reverse name", second_is.unwrap_or_default()),
        );
        self.add(why == [false, false, true], &[11], "11, the two alike");
        self.add(is_respelt(kept, name), &[0], "0, its name");
        self.add(is_blank && has_capital(kept), &[0], "0, capitals filled in");
        let has_capital = kept_reverse.is_some_and(|kept| has_capital(kept));
        self.add(is_reverse_blank && has_capital, &[0], "0, the reverse's capitals filled in");
        self.add(is_blank && is_respelt(kept, name), &[0], "0, filled in as kept and not as asked for");
        let names: Vec<&[u8]> = [Some(first), second].into_iter().flatten().collect();
        self.add_places(to, None, &names);
    }

    fn add_rename(&mut self, here: &Sds, name: &[u8], new_name: &[u8]) {
        let Some((kept, ty)) = here.kept(name) else { return };
        let is_another = here.find(new_name).is_some_and(|bearer| bearer != ty);
        self.add(is_another && is_otherwise(here, new_name), &[11], "11");
        let is_respelt = |name| is_respelt(kept, name);
        self.add(is_respelt(name) && !is_same(kept, new_name), &[0], "0, by another spelling");
        self.add(!is_respelt(name) && is_respelt(new_name), &[0], "0, the spelling alone");
        self.add(is_respelt(name) && name == new_name, &[0], "0, both names in one other spelling");
        self.add(is_respelt(name) && **kept == *new_name, &[0], "0, by another spelling to the one kept");
        self.add_places(here, Some(ty), &[new_name]);
    }

    /// Where the rows of new names come to stand.
    fn add_places(&mut self, here: &Sds, moved: Option<usize>, names: &[&[u8]]) {
        let any = |key| names.iter().any(|name| is_elsewhere(here, moved, name, key));
        self.add(any(bytes), &[0], "0, elsewhere by bytes");
        self.add_any(any(capitals), &[0], "elsewhere by capitals");
    }
}

/// Names lowered, few enough for SDSs to have the same ones. With underscores, digits and letters after the same start
/// they stand otherwise by bytes, and otherwise as capitals.
const STEMS: [&str; 32] = [
    "a",
    "b",
    "z",
    "a0",
    "a9",
    "a_",
    "aa",
    "ab",
    "az",
    "a_a",
    "a_z",
    "a0_",
    "a__",
    "ab_",
    "ab0",
    "aba",
    "abz",
    "az_",
    "za",
    "zz",
    "z0",
    "z_",
    "z_z",
    "object",
    "unit",
    "abcdefghijklmno",
    "abcdefghijklmnop",
    "zbcdefghijklmnop",
    "abcdefghijklmnoz",
    "abcdefghijklmno_",
    "abcdefghijklmno0",
    "zzzzzzzzzzzzzzzz",
];

/// A schema as removals have it, with names in any spelling.
pub fn draw(random: &mut Random) -> Schema {
    let mut s = removals::draw(random);
    rename_all(random, &mut s);
    s
}

/// Gives such names to all SDSs but SDS 0, and to all that has a name in them.
pub fn rename_all(random: &mut Random, s: &mut Schema) {
    let mut sds_names = random.shuffled(STEMS.to_vec()).into_iter();
    for (_, here) in s.sdss.range_mut(1..) {
        let name = sds_names.next().expect("more than SDSs");
        here.name = Name(random.spelt(name.as_bytes()));
        let names = random.shuffled(STEMS.to_vec()).into_iter().map(|stem| Name(random.spelt(stem.as_bytes())));
        here.named = names.zip(here.named.values().copied()).collect();
    }
}

/// A call that gives names, most of them those of something there in another spelling.
pub fn respelling(random: &mut Random, s: &Schema) -> Call {
    let sdss: Vec<usize> = s.sdss.range(1..).map(|(&sds, _)| sds).collect();
    let sds = random.pick(&sdss).expect("four are drawn");
    let here = &s.sdss[&sds];
    let any = |_: &Schema, _: usize| true;
    match random.below(28) {
        0 | 1 => Call::NewSds { name: Text(new_sds_name(random, s)) },
        2..=4 => {
            let parents = parents(random, s, here);
            Call::NewObject { sds, name: Text(new_name(random, here)), parents: Text(parents) }
        }
        5 => Call::NewAttribute { sds, name: Text(new_name(random, here)), value_kind: 0 },
        6 => Call::NewDesignation { sds, name: Text(new_name(random, here)) },
        7 | 8 => {
            let [name, reverse_name] = two_new_names(random, here).map(Text);
            Call::NewPair { sds, name, reverse_name, category: 0, reverse_category: 0 }
        }
        9..=13 => import(random, s, sds),
        14 => {
            let joined: Vec<_> = here.applications.iter().map(|a| [a.attribute, a.to]).collect();
            let [attribute, to] = two_there(random, s, here, &joined, [Schema::is_attribute, Schema::is_object]);
            match random.below(2) {
                0 => Call::Apply { sds, attribute, to },
                _ => Call::Unapply { sds, attribute, to },
            }
        }
        15 | 16 => {
            let joined: Vec<_> = here.ends.iter().map(|end| [end.link, end.object]).collect();
            let [link, object] = two_there(random, s, here, &joined, [Schema::is_link, Schema::is_object]);
            match random.below(4) {
                0 => Call::ApplyLink { sds, link, object },
                1 => Call::UnapplyLink { sds, link, object },
                2 => Call::AddDestination { sds, link, object },
                _ => Call::RemoveDestination { sds, link, object },
            }
        }
        17 => Call::RemoveType { sds, name: Text(there(random, s, here, any)) },
        18..=20 => rename(random, s, sds),
        24 => Call::SetModes { sds, name: Text(there(random, s, here, any)), usage: 1, definition: 2 },
        21..=23 | 26 | 27 => {
            let schema = vec![sds as u8];
            Call::Find { schema, name: Text(there(random, s, here, any)) }
        }
        _ => {
            let types: Vec<usize> = here.types().collect();
            Call::Name { sds, ty: random.pick(&types).unwrap_or(0) }
        }
    }
}

/// A name that is borne, mostly in another spelling, or nearly one.
fn as_given(random: &mut Random, name: &[u8]) -> Vec<u8> {
    match random.below(8) {
        0 => name.to_vec(),
        1 => random.missed(name),
        _ => random.respelt(name),
    }
}

/// The name of a type of the kind in the SDS, if there is one.
fn there(random: &mut Random, s: &Schema, here: &Sds, is_wanted: fn(&Schema, usize) -> bool) -> Vec<u8> {
    let names: Vec<&Name> =
        here.named.iter().filter(|(_, present)| is_wanted(s, present.ty)).map(|(name, _)| name).collect();
    match random.pick(&names) {
        Some(name) => as_given(random, name),
        None => free_name(random, here),
    }
}

/// The names of two types that are joined in the SDS, or of two of the kinds.
fn two_there(
    random: &mut Random,
    s: &Schema,
    here: &Sds,
    joined: &[[usize; 2]],
    kinds: [fn(&Schema, usize) -> bool; 2],
) -> [Text; 2] {
    let names = match random.pick(joined) {
        Some(types) if random.one_in(2) => types.map(|ty| match here.name_of(ty) {
            Some(name) => as_given(random, name),
            None => free_name(random, here),
        }),
        _ => kinds.map(|kind| there(random, s, here, kind)),
    };
    names.map(Text)
}

/// A name that no type in the SDS bears, in any spelling.
pub fn free_name(random: &mut Random, here: &Sds) -> Vec<u8> {
    let free: Vec<&str> = STEMS.into_iter().filter(|stem| here.find(stem.as_bytes()).is_none()).collect();
    let stem = random.pick(&free).unwrap_or("none_was_free");
    random.spelt(stem.as_bytes())
}

/// A name that a type in the SDS bears in another spelling.
fn taken_name(random: &mut Random, here: &Sds) -> Vec<u8> {
    let names: Vec<&Name> = here.named.keys().collect();
    match random.pick(&names) {
        Some(name) => random.respelt(name),
        None => free_name(random, here),
    }
}

fn new_name(random: &mut Random, here: &Sds) -> Vec<u8> {
    if random.one_in(2) {
        taken_name(random, here)
    } else {
        free_name(random, here)
    }
}

/// Two new names, of which one may be taken; or they are the same.
fn two_new_names(random: &mut Random, here: &Sds) -> [Vec<u8>; 2] {
    let free = free_name(random, here);
    match random.below(5) {
        0 => [taken_name(random, here), free],
        1 => [free, taken_name(random, here)],
        2 => [free.clone(), random.respelt(&free)],
        _ => [free, free_name(random, here)],
    }
}

fn new_sds_name(random: &mut Random, s: &Schema) -> Vec<u8> {
    let names: Vec<&Name> = s.sdss.values().map(|sds| &sds.name).collect();
    let borne = random.pick(&names).expect("there is SDS 0");
    let stem = random.pick(&STEMS).expect("there are some");
    match random.below(6) {
        0 => random.spelt(stem.as_bytes()),
        1 => random.respelt(b"system"),
        _ => as_given(random, borne),
    }
}

/// One or two object types; one of them once more at times.
fn parents(random: &mut Random, s: &Schema, here: &Sds) -> Vec<u8> {
    let names: Vec<&Name> =
        here.named.iter().filter(|(_, present)| s.is_object(present.ty)).map(|(name, _)| name).collect();
    let count = 1 + random.below(2);
    let names: Vec<&Name> = random.shuffled(names).into_iter().take(count).collect();
    let mut run: Vec<Vec<u8>> = names.iter().map(|name| as_given(random, name)).collect();
    if random.one_in(3) {
        run.extend(run.first().map(|name| random.respelt(name)));
    }
    run.join(&b' ')
}

/// An import of what the target lacks, where something is. Of its one or two new names, given or blank, one may be taken,
/// or they are the same.
fn import(random: &mut Random, s: &Schema, target: usize) -> Call {
    let to = &s.sdss[&target];
    let sources: Vec<usize> =
        s.sdss.keys().copied().filter(|&source| !importable(s, target, source).is_empty()).collect();
    let Some(source) = random.pick(&sources) else {
        return Call::NewAttribute { sds: target, name: Text(new_name(random, to)), value_kind: 0 };
    };
    let from = &s.sdss[&source];
    let reverse_name = |name: &Name| from.find(name).and_then(|ty| s.reverse(ty)).and_then(|ty| from.name_of(ty));
    let aim = random.below(10);
    let is_aimed_at = |name: &Name| match aim {
        1 => is_otherwise(to, name),
        2 | 5 | 6 => reverse_name(name).is_some(),
        3 | 4 => reverse_name(name).is_some_and(|reverse| is_otherwise(to, reverse)),
        _ => true,
    };
    let all = importable(s, target, source);
    let aimed_at: Vec<&Name> = all.iter().copied().filter(|name| is_aimed_at(name)).collect();
    let kept = random.pick(&aimed_at).or_else(|| random.pick(&all)).expect("tested above");
    let has_reverse = reverse_name(kept).is_some();
    let (blank, free) = (Vec::new(), free_name(random, to));
    let [new_name, new_reverse_name] = match aim {
        0 => [taken_name(random, to), free],
        1 => [blank, free],
        2 => [free, taken_name(random, to)],
        3 | 4 => [free, blank],
        5 => [free.clone(), random.respelt(&free)],
        7 => [free, free_name(random, to)],
        _ => [blank.clone(), blank],
    };
    let new_reverse_name = if has_reverse { new_reverse_name } else { Vec::new() };
    let name = Text(as_given(random, kept));
    Call::Import { target, source, name, new_name: Text(new_name), new_reverse_name: Text(new_reverse_name) }
}

fn rename(random: &mut Random, s: &Schema, sds: usize) -> Call {
    let here = &s.sdss[&sds];
    let given = there(random, s, here, |_, _| true);
    let (name, new_name) = match (random.below(6), here.kept(&given)) {
        (0, Some((kept, _))) => (given, kept.0.clone()),
        (1, Some((kept, _))) => (kept.0.clone(), random.respelt(kept)),
        (2, _) => (given.clone(), given),
        (3, _) => (given, taken_name(random, here)),
        _ => (given, free_name(random, here)),
    };
    Call::Rename { sds, name: Text(name), new_name: Text(new_name) }
}

#[cfg(test)]
mod tests {
    use super::SPELT;
    use crate::run::Run;
    use crate::{HISTORY, LONG};

    /// A long run has as many histories, twice as long, and each ends with such calls.
    #[test]
    fn no_spelling_is_seldom() {
        let mut run = Run::new(None);
        let seldom = |run: &Run| -> Vec<String> {
            run.counts.seldom().into_iter().filter(|what| what.starts_with("spelling: ")).collect()
        };
        assert_eq!(seldom(&run).len(), SPELT.len());
        for number in 0..LONG / HISTORY {
            run.begin(1, number).unwrap();
            (0..HISTORY / 2).for_each(|_| run.step().unwrap());
            run.spellings().unwrap();
        }
        assert_eq!(seldom(&run), [""; 0]);
    }
}
