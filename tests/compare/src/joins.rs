//! Two working schemas put end to end (02, Q-10): schemas drawn for them, questions under each list and under their join,
//! and the laws that make the joined answer of the two. No law looks at the schema.
#![forbid(unsafe_code)]

use crate::calls::{Call, CALLS};
use crate::coverage::Traits;
use crate::modes;
use crate::nameless::{is_nameless, take_names};
use crate::random::Random;
use crate::removals::{draw_sds, other_types};
use crate::run::{Run, Told};
use crate::schema::{Name, Schema};
use crate::shapes::{spread, visible};
use crate::spellings;
use std::collections::BTreeSet;

/// What should come up often: v is the first list, w the second. Lists in another order count where they are really in
/// another order, and a call that is done where it gives something.
pub const JOINED: [&str; 51] = [
    "v is empty",
    "w is empty",
    "visible in v alone",
    "visible in w alone",
    "visible in both",
    "visible in neither",
    "visible, nameless alone",
    "find: by v, another type by w",
    "find: by w, where v is 6",
    "find: by w, nameless in v",
    "find: 6 in both",
    "find: 4",
    "find: in another spelling",
    "descendants: of both, neither list holds the other",
    "descendants: of both, one list holds the other",
    "descendants: visible in v alone",
    "descendants: visible in w alone",
    "descendants: 15 for the join alone",
    "descendants: a nameless type",
    "attribute-all: more than the two apart",
    "modes: of both, more than each",
    "modes: of both, those of one",
    "modes: visible in v alone",
    "modes: visible in w alone",
    "modes: visible in neither",
    "modes: nameless in one, named in the other",
    "order: scan_object, code 0",
    "order: scan_object, code 1",
    "order: scan_object, code 2",
    "order: scan_object, code 3",
    "order: scan_object, code 4",
    "order: scan_object, code 5",
    "order: scan_object, code 6",
    "order: scan_object, code 7",
    "order: scan_object, code 8",
    "order: scan_object, code 9",
    "order: scan_link, code 0",
    "order: scan_link, code 1",
    "order: scan_link, code 2",
    "order: scan_link, code 3",
    "order: scan_link, code 4",
    "order: profile",
    "order: depth",
    "order: descendant_set",
    "order: modes",
    "order: 2",
    "order: 5",
    "order: 6",
    "order: 7",
    "order: 8",
    "order: 15",
];

/// So many schemas make a long run.
pub const LONG: usize = 600;

/// On each schema so many joins, and so many calls whose list is put in another order.
const JOINS: usize = 3;
const ORDERS: usize = 80;

/// For each join so many types of each sort are looked for, so many object types of each sort asked about, and so many
/// names.
const SEEN: usize = 4;
const ASKED: usize = 2;
const NAMES: usize = 6;

const DESCENDANT: usize = 1;
const ATTRIBUTE_ALL: usize = 5;

/// An output of so many bytes holds any list.
const WHOLE: usize = 2 * Schema::TYPES;

/// Three SDSs or more beside SDS 0, which share types of every kind, with any modes, and names for different ones, in
/// any spelling. Half of the time object types are nameless, some here, some there.
pub fn draw(random: &mut Random) -> Schema {
    let mut s = if random.one_in(2) { spellings::draw(random) } else { drawn(random) };
    if random.one_in(2) {
        s.used().into_iter().skip(1).for_each(|sds| take_names(random, &mut s, sds.into(), 4));
    }
    modes::give(random, &mut s);
    s
}

fn drawn(random: &mut Random) -> Schema {
    let sdss = 3 + random.below(4);
    let mut numbers = random.shuffled((1..Schema::TYPES).collect());
    let objects = numbers.split_off(numbers.len() - 4 - random.below(32));
    let mut drawn = spread(random, sdss, &objects);
    for group in other_types(|| numbers.pop().expect("few are used")) {
        let sds = random.below(sdss);
        drawn.put(random, sds, &BTreeSet::new(), group);
    }
    let mut s = Schema::fresh();
    s.types.extend(drawn.types);
    for (sds, held) in random.shuffled((1..Schema::SDSS).collect()).into_iter().zip(drawn.held) {
        let mut here = draw_sds(random, &s, sds, &held);
        let respelt = here.named.into_iter().map(|(name, present)| (Name(random.spelt(&name)), present));
        here.named = respelt.collect();
        s.sdss.insert(sds, here);
    }
    s
}

/// Two lists of used SDSs, none twice in both together; either may be empty.
fn two_lists(random: &mut Random, s: &Schema) -> [Vec<u8>; 2] {
    let mut left = random.shuffled(s.used()).into_iter();
    [(); 2].map(|()| {
        let count = if random.one_in(6) { 0 } else { 1 + random.below(3) };
        left.by_ref().take(count).collect()
    })
}

/// The type numbers by sort: visible under the first list alone, under the second alone, under both, under neither.
fn sorts(s: &Schema, lists: &[Vec<u8>; 2]) -> [Vec<usize>; 4] {
    let [v, w] = lists.each_ref().map(|list| visible(s, list));
    let neither = (0..Schema::TYPES).filter(|ty| !v.contains(ty) && !w.contains(ty)).collect();
    [&v - &w, &w - &v, &v & &w, neither].map(|sort| sort.into_iter().collect())
}

/// Makes the joined answer of the two, with the output as it was before.
type Law = fn(&[u8], [&Told; 2]) -> Told;

/// The law of find. Depth has it too: it is 6 exactly where the type is not visible, and is otherwise the type's own.
fn first_or_second(_: &[u8], [v, w]: [&Told; 2]) -> Told {
    if v.answer[0] == 6 {
        w.clone()
    } else {
        v.clone()
    }
}

/// The law of lists of descendants. A type visible under one list alone has the answer of that. A joined list is no
/// shorter than the two: it has no room where one of them has none, or where the union has none.
fn union_listed(before: &[u8], told: [&Told; 2]) -> Told {
    match told.map(|told| told.answer[0]) {
        [0, 0] => {
            let union: BTreeSet<u16> = told.iter().flat_map(|told| listed(told)).collect();
            let mut output = before.to_vec();
            match output.get_mut(..2 * union.len()) {
                Some(entries) => {
                    let bytes: Vec<u8> = union.iter().flat_map(|ty| ty.to_le_bytes()).collect();
                    entries.copy_from_slice(&bytes);
                    Told { answer: [0, union.len(), 0, 0], output }
                }
                None => Told { answer: [15, 0, 0, 0], output },
            }
        }
        [0, 15] => told[1].clone(),
        _ => first_or_second(before, told),
    }
}

/// The law of sets of descendants.
fn union_marked(before: &[u8], told: [&Told; 2]) -> Told {
    match told.map(|told| told.answer) {
        [[0, v_low, v_high, _], [0, w_low, w_high, _]] => {
            let words = [v_low | w_low, v_high | w_high];
            let marks = words.map(|word| word.count_ones() as usize).iter().sum();
            Told { answer: [0, words[0], words[1], marks], output: before.to_vec() }
        }
        _ => first_or_second(before, told),
    }
}

/// The law of modes.
fn union_of_modes(before: &[u8], told: [&Told; 2]) -> Told {
    match told.map(|told| told.answer) {
        [[0, v_usage, v_definition, _], [0, w_usage, w_definition, _]] => {
            Told { answer: [0, v_usage | w_usage, v_definition | w_definition, 0], output: before.to_vec() }
        }
        _ => first_or_second(before, told),
    }
}

/// The types that a scan has put down, none where it is refused.
fn listed(told: &Told) -> BTreeSet<u16> {
    let entries = told.output.chunks_exact(2).map(|entry| u16::from_le_bytes([entry[0], entry[1]]));
    entries.take(told.answer[1]).collect()
}

/// The places of these in `CALLS`.
fn places(names: &[&str]) -> Vec<usize> {
    let place = |name: &&str| CALLS.iter().position(|call| call.name == *name).expect("a call");
    names.iter().map(place).collect()
}

/// Whether the type asked about is visible, by the answers.
fn sees(told: &[Told; 2]) -> [bool; 2] {
    told.each_ref().map(|told| told.answer[0] != 6)
}

/// What a call that has the same answer in another order is called; nothing where it gives nothing.
fn reordered(call: &Call, answer: [usize; 4]) -> Option<String> {
    let name = CALLS[call.index()].name;
    match (answer, call.asked()?.code) {
        ([0, 0, 0, 0], _) => None,
        ([0, ..], Some(code)) => Some(format!("order: {name}, code {code}")),
        ([0, ..], None) => Some(format!("order: {name}")),
        ([no, ..], _) => Some(format!("order: {no}")),
    }
}

impl Run {
    /// Every law on one drawn schema. It depends on nothing but the numbers.
    pub fn joins(&mut self, seed: u64, number: usize) -> Result<(), String> {
        self.begin(seed, number)?;
        self.place = format!("seed {seed}, schema {number}");
        let place = self.place.clone();
        self.draw(draw)?;
        for _ in 0..JOINS {
            let lists = two_lists(&mut self.caller.random, &self.schema);
            let empty = ["v is empty", "w is empty"].into_iter().zip(&lists).filter(|(_, list)| list.is_empty());
            empty.for_each(|(what, _)| self.counts.join(what));
            self.place = format!("{place}, {:?} and {:?}", lists[0], lists[1]);
            self.visible(&lists)?;
            self.finds(&lists)?;
            self.scans(&lists)?;
            self.modes_joined(&lists)?;
        }
        self.place = format!("{place}, another order");
        (0..ORDERS).try_for_each(|_| self.order())
    }

    /// What is visible under the join is what is visible under one of the two.
    fn visible(&mut self, lists: &[Vec<u8>; 2]) -> Result<(), String> {
        let random = &mut self.caller.random;
        let mut types = random.pick(&[128, 255, 1000]).into_iter().collect::<Vec<usize>>();
        for sort in sorts(&self.schema, lists) {
            types.extend(random.shuffled(sort).into_iter().take(SEEN));
        }
        for ty in types {
            let call = Call::Depth { schema: Vec::new(), ty };
            let output = self.output(&call);
            let told = self.join(&call, lists, &output, first_or_second)?;
            self.counts.join(match sees(&told) {
                [true, false] => "visible in v alone",
                [false, true] => "visible in w alone",
                [true, true] => "visible in both",
                [false, false] => "visible in neither",
            });
            if is_nameless(&self.schema, &lists.concat(), ty) {
                self.counts.join("visible, nameless alone");
            }
        }
        Ok(())
    }

    /// Names borne in any SDS, in any spelling, or in none, or malformed, and some of types that are nameless in the first
    /// list, if the second has them alone; under both orders of the two lists.
    fn finds(&mut self, lists: &[Vec<u8>; 2]) -> Result<(), String> {
        let s = &self.schema;
        let named = lists[1].iter().flat_map(|&sds| &s.sdss[&sds.into()].named);
        let nameless = named.filter(|(_, present)| is_nameless(s, &lists[0], present.ty)).map(|(name, _)| name);
        let is_free = |name: &&Name| lists[0].iter().all(|&sds| s.sdss[&sds.into()].find(name).is_none());
        let names = self.caller.random.shuffled(nameless.filter(is_free).collect());
        let names = names.into_iter().take(ASKED);
        let mut calls: Vec<Call> = names.map(|name| Call::Find { schema: Vec::new(), name: name.into() }).collect();
        calls.extend((0..NAMES).map(|_| self.caller.any_of(s, &places(&["find"]))));
        for call in calls {
            let output = self.output(&call);
            let [v, w] = self.join(&call, lists, &output, first_or_second)?;
            let turned = call.under(&[&lists[1][..], &lists[0]].concat());
            self.hold(&turned, &output, &first_or_second(&output, [&w, &v]))?;
            match [v.answer, w.answer] {
                [[0, by_v, ..], [0, by_w, ..]] if by_v != by_w => self.counts.join("find: by v, another type by w"),
                [[6, ..], [0, ..]] => self.counts.join("find: by w, where v is 6"),
                [[6, ..], [6, ..]] => self.counts.join("find: 6 in both"),
                [[4, ..], _] => self.counts.join("find: 4"),
                _ => {}
            }
            if v.answer[0] == 6 && w.answer[0] == 0 && is_nameless(&self.schema, &lists[0], w.answer[1]) {
                self.counts.join("find: by w, nameless in v");
            }
            let is_found = v.answer[0] == 0 || w.answer[0] == 0;
            let call = call.under(&lists.concat());
            let mut spelt = Traits::of(&call);
            spellings::add_traits(&mut spelt, &self.schema, &call);
            if is_found && spelt.found.iter().any(|spelt| spelt.what == "find 0") {
                self.counts.join("find: in another spelling");
            }
        }
        Ok(())
    }

    /// Lists and sets of descendants and attribute-all, of object types of each sort.
    fn scans(&mut self, lists: &[Vec<u8>; 2]) -> Result<(), String> {
        for sort in sorts(&self.schema, lists) {
            let objects = sort.into_iter().filter(|&ty| self.schema.is_object(ty)).collect();
            for ty in self.caller.random.shuffled(objects).into_iter().take(ASKED) {
                self.descendants(lists, ty)?;
                self.attribute_all(lists, ty)?;
            }
        }
        Ok(())
    }

    fn descendants(&mut self, lists: &[Vec<u8>; 2], ty: usize) -> Result<(), String> {
        let call = Call::DescendantSet { schema: Vec::new(), ty };
        let output = self.output(&call);
        self.join(&call, lists, &output, union_marked)?;
        let call = Call::ScanObject { schema: Vec::new(), ty, code: DESCENDANT };
        let length = WHOLE + self.caller.random.below(16);
        let told = self.listed_in(&call, lists, length)?;
        let [v, w] = told.each_ref().map(listed);
        let union = &v | &w;
        if union.is_empty() {
            return Ok(());
        }
        if union.iter().any(|&ty| is_nameless(&self.schema, &lists.concat(), ty.into())) {
            self.counts.join("descendants: a nameless type");
        }
        let one_holds_the_other = v == union || w == union;
        match sees(&told) {
            [true, false] => self.counts.join("descendants: visible in v alone"),
            [false, _] => self.counts.join("descendants: visible in w alone"),
            _ if !one_holds_the_other => self.counts.join("descendants: of both, neither list holds the other"),
            _ if v != w => self.counts.join("descendants: of both, one list holds the other"),
            _ => {}
        }
        // Once more with too little room for the join; where that can be, with enough for the two.
        let least = if one_holds_the_other { 0 } else { 2 * v.len().max(w.len()) };
        let length = least + self.caller.random.below(2 * union.len() - least);
        let told = self.listed_in(&call, lists, length)?;
        if told.iter().all(|told| told.answer[0] == 0) {
            self.counts.join("descendants: 15 for the join alone");
        }
        Ok(())
    }

    /// The list of descendants in an output of so many bytes.
    fn listed_in(&mut self, call: &Call, lists: &[Vec<u8>; 2], length: usize) -> Result<[Told; 2], String> {
        let output = self.caller.random.bytes(length);
        self.join(call, lists, &output, union_listed)
    }

    /// The modes of types of each sort and of every kind, under both orders of the two lists.
    fn modes_joined(&mut self, lists: &[Vec<u8>; 2]) -> Result<(), String> {
        for sort in sorts(&self.schema, lists) {
            for ty in self.caller.random.shuffled(sort).into_iter().take(ASKED) {
                let call = Call::Modes { schema: Vec::new(), ty };
                let output = self.output(&call);
                let told = self.join(&call, lists, &output, union_of_modes)?;
                let union = union_of_modes(&output, told.each_ref());
                self.hold(&call.under(&[&lists[1][..], &lists[0]].concat()), &output, &union)?;
                let is_nameless = lists.each_ref().map(|list| is_nameless(&self.schema, list, ty));
                if sees(&told) == [true, true] && is_nameless[0] != is_nameless[1] {
                    self.counts.join("modes: nameless in one, named in the other");
                }
                self.counts.join(match (sees(&told), told.each_ref().map(|told| *told == union)) {
                    ([true, true], [false, false]) => "modes: of both, more than each",
                    ([true, true], _) => "modes: of both, those of one",
                    ([true, false], _) => "modes: visible in v alone",
                    ([false, true], _) => "modes: visible in w alone",
                    ([false, false], _) => "modes: visible in neither",
                });
            }
        }
        Ok(())
    }

    /// There is no law but that the join gives no less than the two.
    fn attribute_all(&mut self, lists: &[Vec<u8>; 2], ty: usize) -> Result<(), String> {
        let call = Call::ScanObject { schema: Vec::new(), ty, code: ATTRIBUTE_ALL };
        let output = self.caller.random.bytes(WHOLE);
        let told = self.apart(&call, lists, &output)?;
        let call = call.under(&lists.concat());
        let joined = self.ask(&call, &output)?;
        let is_refused = joined.answer[0] != 0;
        let [apart, joined] = [told.iter().flat_map(listed).collect(), listed(&joined)];
        if is_refused && sees(&told).contains(&true) || !apart.is_subset(&joined) {
            return Err(format!("{}: keeper gives less than the two apart: {call:?}", self.place));
        }
        if apart != joined {
            self.counts.join("attribute-all: more than the two apart");
        }
        Ok(())
    }

    /// A call under any list, and under the same in another order.
    fn order(&mut self) -> Result<(), String> {
        // Each code should come up.
        let scans = [&["scan_object"; 6][..], &["scan_link"; 2]].concat();
        let kinds = places(&[&scans[..], &["profile", "depth", "descendant_set", "modes"]].concat());
        let (call, other) = loop {
            let call = self.caller.any_of(&self.schema, &kinds);
            let list = call.asked().expect("each has one").schema.to_vec();
            let other = call.under(&self.caller.random.shuffled(list));
            if other != call {
                break (call, other);
            }
        };
        let output = self.output(&call);
        let told = self.ask(&call, &output)?;
        self.hold(&other, &output, &told)?;
        reordered(&call, told.answer).iter().for_each(|what| self.counts.join(what));
        Ok(())
    }

    /// The call under the first list and under the second, and under their join, which is held to the law.
    fn join(&mut self, call: &Call, lists: &[Vec<u8>; 2], output: &[u8], law: Law) -> Result<[Told; 2], String> {
        let told = self.apart(call, lists, output)?;
        self.hold(&call.under(&lists.concat()), output, &law(output, told.each_ref()))?;
        Ok(told)
    }

    fn apart(&mut self, call: &Call, [v, w]: &[Vec<u8>; 2], output: &[u8]) -> Result<[Told; 2], String> {
        Ok([self.ask(&call.under(v), output)?, self.ask(&call.under(w), output)?])
    }
}

#[cfg(test)]
mod tests {
    use super::{draw, first_or_second, two_lists, union_listed, union_marked, union_of_modes, Law, JOINED, LONG};
    use crate::random::Random;
    use crate::run::{Run, Told};
    use crate::schema::{Name, Schema, Sds};

    fn told(answer: [usize; 4], output: &[u8]) -> Told {
        Told { answer, output: output.to_vec() }
    }

    fn refused(no: usize, output: &[u8]) -> Told {
        told([no, 0, 0, 0], output)
    }

    /// What the law makes of the two, and of the two turned round, with an output of 9s.
    fn is_both_ways(law: Law, one: &Told, other: &Told, [joined, turned]: [&Told; 2]) -> bool {
        let before = vec![9; one.output.len()];
        law(&before, [one, other]) == *joined && law(&before, [other, one]) == *turned
    }

    #[test]
    fn the_first_answer_or_where_that_is_6_the_second() {
        let [one, other] = [1, 2].map(|ty| told([0, ty, 0, 0], &[]));
        let [malformed, missing] = [4, 6].map(|no| refused(no, &[]));
        assert!(is_both_ways(first_or_second, &one, &other, [&one, &other]));
        assert!(is_both_ways(first_or_second, &one, &missing, [&one, &one]));
        assert!(is_both_ways(first_or_second, &missing, &missing, [&missing, &missing]));
        assert!(is_both_ways(first_or_second, &malformed, &malformed, [&malformed, &malformed]));
    }

    #[test]
    fn descendants_listed() {
        let one = told([0, 2, 0, 0], &[1, 0, 5, 0, 9, 9, 9]);
        let other = told([0, 2, 0, 0], &[1, 0, 3, 0, 9, 9, 9]);
        let union = told([0, 3, 0, 0], &[1, 0, 3, 0, 5, 0, 9]);
        assert!(is_both_ways(union_listed, &one, &other, [&union, &union]));
        let [missing, wrong, short] = [6, 7, 15].map(|no| refused(no, &[9; 7]));
        for alone in [&one, &wrong, &short, &missing] {
            assert!(is_both_ways(union_listed, alone, &missing, [alone, alone]));
        }
        assert!(is_both_ways(union_listed, &wrong, &wrong, [&wrong, &wrong]));
        // Room for neither, for one, and for each but not for their union.
        assert!(is_both_ways(union_listed, &short, &short, [&short, &short]));
        assert!(is_both_ways(union_listed, &one, &short, [&short, &short]));
        let (one, other) = (told([0, 1, 0, 0], &[5, 0, 9]), told([0, 1, 0, 0], &[3, 0, 9]));
        let short = refused(15, &[9; 3]);
        assert!(is_both_ways(union_listed, &one, &other, [&short, &short]));
    }

    #[test]
    fn descendants_marked() {
        let (one, other) = (told([0, 0b011, 1 << 63, 3], &[9]), told([0, 0b110, 1, 3], &[9]));
        let union = told([0, 0b111, 1 << 63 | 1, 5], &[9]);
        assert!(is_both_ways(union_marked, &one, &other, [&union, &union]));
        assert!(is_both_ways(union_marked, &one, &refused(6, &[9]), [&one, &one]));
    }

    #[test]
    fn modes_joined() {
        let (one, other) = (told([0, 0b00101, 0, 0], &[9]), told([0, 0b10001, 0b11111, 0], &[9]));
        let union = told([0, 0b10101, 0b11111, 0], &[9]);
        assert!(is_both_ways(union_of_modes, &one, &other, [&union, &union]));
        let missing = refused(6, &[9]);
        assert!(is_both_ways(union_of_modes, &one, &missing, [&one, &one]));
        assert!(is_both_ways(union_of_modes, &missing, &missing, [&missing, &missing]));
    }

    /// Some type is shared, and some name is borne by different types, in whatever spelling.
    #[test]
    fn drawn_schemas_are_as_called() {
        let mut random = Random::new(1);
        for _ in 0..200 {
            let s = draw(&mut random);
            let sdss: Vec<&Sds> = s.sdss.range(1..).map(|(_, sds)| sds).collect();
            let named = || sdss.iter().flat_map(|sds| &sds.named);
            let is_shared = |ty| ty != 0 && sdss.iter().filter(|sds| sds.holds(ty)).count() > 1;
            let is_another =
                |name: &Name, ty| sdss.iter().any(|sds| sds.find(name).is_some_and(|other| other != ty));
            assert!(sdss.len() >= 3 && sdss.iter().flat_map(|sds| sds.types()).any(is_shared));
            assert!(named().any(|(name, present)| is_another(name, present.ty)));
            for is_kind in [Schema::is_object, Schema::is_attribute, Schema::is_link] {
                assert!(s.types.keys().any(|&ty| is_kind(&s, ty)));
            }
            let mut listed = two_lists(&mut random, &s).concat();
            assert!(listed.iter().all(|sds| s.used().contains(sds)));
            listed.sort();
            assert!(listed.is_sorted_by(|one, other| one < other));
        }
    }

    #[test]
    fn no_join_is_seldom() {
        let mut run = Run::new(None);
        assert_eq!(run.counts.seldom_joined().len(), JOINED.len());
        (0..LONG).for_each(|number| run.joins(1, number).unwrap());
        assert_eq!(run.counts.seldom_joined(), [""; 0]);
        // Nothing is counted that no floor is asked of.
        assert_eq!(run.counts.joined.len(), JOINED.len());
    }
}
