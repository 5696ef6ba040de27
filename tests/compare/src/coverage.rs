//! How often what happened, so that a run shows what it has seen.
#![forbid(unsafe_code)]

use crate::calls::{Call, CALLS, NUMBERS};
use crate::files;
use crate::joins::JOINED;
use crate::modes::MODED;
use crate::nameless::NAMELESS;
use crate::removals::{traits, REMOVED};
use crate::schema::Schema;
use crate::shapes::{visible, SHAPES};
use crate::spellings::SPELT;
use crate::spoil::{EXPECTED, WAYS};
use std::collections::{BTreeMap, BTreeSet};

/// Each number of each call should come up at least so often.
const OFTEN: usize = 20;

/// So should all that is answered under an empty list, on a sound base.
const UNLISTED: [&str; 10] = [
    "no SDS listed: scan_object 5",
    "no SDS listed: scan_object 6",
    "no SDS listed: scan_link 5",
    "no SDS listed: scan_link 6",
    "no SDS listed: profile 6",
    "no SDS listed: find 4",
    "no SDS listed: find 6",
    "no SDS listed: depth 6",
    "no SDS listed: descendant_set 6",
    "no SDS listed: modes 6",
];

/// What schemas are drawn for should come up so often: each of `REMOVED`, of `SPELT`, of `MODED`, of `NAMELESS` and of
/// `JOINED`, what `files::often` lists, and lists of descendants, of each shape and with each of these, which one pass by
/// number, first parents alone, too few passes or no look at presences would get wrong.
const OFTEN_DRAWN: usize = 200;
const LISTED: [&str; 5] = [
    "a type below its parents",
    "a type by two parents",
    "a type not by its first parent",
    "126 types or more",
    "a type not visible left out",
];

/// So often should a file come up that takes long.
const FEW: usize = 4;

/// So often should each way that spoils spellings, modes or nameless presences have left a base as it is expected to, sound
/// or not.
const OFTEN_SPOILED: usize = 100;

/// What a call is called if it is answered one of the numbers.
pub struct Trait {
    pub what: String,
    pub numbers: &'static [usize],
}

/// The traits of a call, found before it is made.
pub struct Traits {
    /// The call's name.
    call: &'static str,
    pub found: Vec<Trait>,
}

impl Traits {
    /// None as yet.
    pub fn of(call: &Call) -> Traits {
        Traits { call: CALLS[call.index()].name, found: Vec::new() }
    }

    pub fn add(&mut self, is_so: bool, numbers: &'static [usize], what: &str) {
        if is_so {
            self.found.push(Trait { what: format!("{} {what}", self.call), numbers });
        }
    }

    /// The same whatever the call.
    pub fn add_any(&mut self, is_so: bool, numbers: &'static [usize], what: &str) {
        if is_so {
            self.found.push(Trait { what: what.into(), numbers });
        }
    }

    /// Those that the call has with its answer.
    pub fn answered(self, answer: [usize; 4]) -> impl Iterator<Item = String> {
        self.found.into_iter().filter(move |found| found.numbers.contains(&answer[0])).map(|found| found.what)
    }
}

/// Calls that have something in common.
#[derive(Clone, Copy, Default)]
pub struct Seen {
    pub calls: usize,
    pub done: usize,
    /// The most entries that one has put down.
    pub longest: usize,
}

pub struct Counts {
    /// For each call how often each number was answered.
    pub answered: [[usize; NUMBERS]; CALLS.len()],
    /// For each way of spoiling how many bases were sound all the same, and how many were not.
    pub spoiled: [[usize; 2]; WAYS.len()],
    /// The calls under a working schema, by their code, their list of SDSs and their output.
    pub asked: BTreeMap<String, Seen>,
    /// Removals on sound bases, by their traits.
    pub removed: BTreeMap<String, usize>,
    /// Calls on sound bases, by the spellings of their names.
    pub spelt: BTreeMap<String, usize>,
    /// Calls on sound bases, by the modes that they set, ask for, or should keep or renew.
    pub moded: BTreeMap<String, usize>,
    /// Calls on sound bases, by the nameless presences that they bring, handle, miss or list.
    pub nameless: BTreeMap<String, usize>,
    /// Questions under two lists and their join, or under a list in another order.
    pub joined: BTreeMap<String, usize>,
    /// Files that were read or refused, and bases that were written as one.
    pub filed: BTreeMap<String, usize>,
}

impl Counts {
    pub fn new() -> Counts {
        Counts {
            answered: [[0; NUMBERS]; CALLS.len()],
            spoiled: [[0; 2]; WAYS.len()],
            asked: BTreeMap::new(),
            removed: BTreeMap::new(),
            spelt: BTreeMap::new(),
            moded: BTreeMap::new(),
            nameless: BTreeMap::new(),
            joined: BTreeMap::new(),
            filed: BTreeMap::new(),
        }
    }

    pub fn add(&mut self, other: &Counts) {
        let (sums, numbers) = (self.answered.as_flattened_mut(), other.answered.as_flattened());
        sums.iter_mut().zip(numbers).for_each(|(sum, number)| *sum += number);
        let (sums, numbers) = (self.spoiled.as_flattened_mut(), other.spoiled.as_flattened());
        sums.iter_mut().zip(numbers).for_each(|(sum, number)| *sum += number);
        for (what, seen) in &other.asked {
            let sum = self.asked.entry(what.clone()).or_default();
            sum.calls += seen.calls;
            sum.done += seen.done;
            sum.longest = sum.longest.max(seen.longest);
        }
        for (sums, numbers) in [
            (&mut self.removed, &other.removed),
            (&mut self.spelt, &other.spelt),
            (&mut self.moded, &other.moded),
            (&mut self.nameless, &other.nameless),
            (&mut self.joined, &other.joined),
            (&mut self.filed, &other.filed),
        ] {
            numbers.iter().for_each(|(what, number)| *sums.entry(what.clone()).or_default() += number);
        }
    }

    /// Counts a call that was made on the base of the schema with an output of so many bytes.
    pub fn ask(&mut self, schema: &Schema, call: &Call, output: usize, answer: [usize; 4]) {
        let Some(asked) = call.asked() else { return };
        let entries = call.entries(answer);
        let has_room_in = |output| call.on(&mut schema.clone(), output).no != 15;
        let name = CALLS[call.index()].name;
        let code = asked.code.map(|code| match code {
            0..10 => format!("{name}, code {code}"),
            _ => format!("{name}, a code over 9"),
        });
        let is_used = |&sds: &u8| schema.sdss.contains_key(&sds.into());
        let list: &str = match asked.schema {
            [] => &format!("no SDS listed: {name} {}", answer[0]),
            list if list.len() > Schema::SDSS => "more than 16 SDSs listed",
            list if list.iter().any(|&sds| usize::from(sds) >= Schema::SDSS) => "an SDS over 15 listed",
            list if (1..list.len()).any(|n| list[..n].contains(&list[n])) => "an SDS listed twice",
            list if list.len() == schema.sdss.len() && list.iter().all(is_used) => "all SDSs listed",
            [_] => "one SDS listed",
            _ => "several SDSs listed",
        };
        let output = asked.has_output.then(|| match output {
            0 => "output of length 0",
            _ if answer[0] == 15 && has_room_in(output + 1) => "output a byte too short",
            _ if answer[0] == 15 && has_room_in(output + 2) => "output an entry too short",
            _ if answer[0] != 0 => "output of any other length",
            _ if output == 2 * entries => "output just long enough",
            _ if output % 2 == 1 => "output longer, odd",
            _ => "output longer, even",
        });
        for what in [code, Some(list.into()), output.map(String::from)].into_iter().flatten() {
            self.see(what, answer[0] == 0, entries);
        }
    }

    fn see(&mut self, what: String, is_done: bool, entries: usize) {
        let seen = self.asked.entry(what).or_default();
        seen.calls += 1;
        seen.done += usize::from(is_done);
        seen.longest = seen.longest.max(entries);
    }

    /// Counts a list or set of descendants that was given, if not empty, on the schema of the shape.
    pub fn descend(&mut self, shape: &str, schema: &Schema, call: &Call, answer: [usize; 4]) {
        let (list, asked) = match call {
            Call::ScanObject { schema, ty, code: 1 } | Call::DescendantSet { schema, ty } => (schema, *ty),
            _ => return,
        };
        let all = schema.descendants(asked);
        let listed = &all & &visible(schema, list);
        if answer[0] != 0 || listed.is_empty() {
            return;
        }
        type IsSo<'a> = &'a dyn Fn(usize, &BTreeSet<usize>) -> bool;
        let any = |is_so: IsSo| listed.iter().any(|&ty| is_so(ty, &schema.parents(ty)));
        let leads = |parent: &&usize| **parent == asked || listed.contains(*parent);
        let is_so = [
            any(&|ty, parents| parents.iter().filter(leads).all(|&parent| parent != asked && parent > ty)),
            any(&|_, parents| (parents & &listed).len() > 1),
            any(&|_, parents| !parents.first().as_ref().is_some_and(leads)),
            listed.len() >= Schema::TYPES - 2,
            listed.len() < all.len(),
        ];
        let seen = LISTED.into_iter().zip(is_so).filter(|(_, is_so)| *is_so).map(|(what, _)| what);
        for what in seen.chain([shape]) {
            self.see(format!("descent: {what}"), true, listed.len());
        }
    }

    /// Counts a removal that left the schema.
    pub fn remove(&mut self, schema: &Schema, call: &Call, answer: [usize; 4]) {
        for what in traits(schema, call, answer) {
            *self.removed.entry(what).or_default() += 1;
        }
    }

    /// Counts a call by the spellings of its names.
    pub fn spell(&mut self, spelt: Traits, answer: [usize; 4]) {
        spelt.answered(answer).for_each(|what| *self.spelt.entry(what).or_default() += 1);
    }

    /// Counts a call by its modes.
    pub fn set_modes(&mut self, moded: Traits, answer: [usize; 4]) {
        moded.answered(answer).for_each(|what| *self.moded.entry(what).or_default() += 1);
    }

    /// Counts a call by nameless presences.
    pub fn go_nameless(&mut self, nameless: Traits, answer: [usize; 4]) {
        nameless.answered(answer).for_each(|what| *self.nameless.entry(what).or_default() += 1);
    }

    /// Counts what a law was held to.
    pub fn join(&mut self, what: &str) {
        *self.joined.entry(what.into()).or_default() += 1;
    }

    /// Counts a file by all that it is called.
    pub fn file(&mut self, whats: impl IntoIterator<Item = impl Into<String>>) {
        whats.into_iter().for_each(|what| *self.filed.entry(what.into()).or_default() += 1);
    }

    /// How many files were to be read.
    pub fn files(&self) -> usize {
        let read = CALLS.iter().position(|call| call.name == "read_file").expect("it is a call");
        self.answered[read].iter().sum()
    }

    /// What a long run of files should have seen and came up too seldom.
    pub fn seldom_filed(&self) -> Vec<String> {
        let few = files::FEW.into_iter().filter(|what| self.filed.get(*what).is_none_or(|&files| files < FEW));
        let few: Vec<String> = few.map(|what| format!("file: {what}")).collect();
        [few, seldom_of("file", &files::often(), &self.filed)].concat()
    }

    /// What a long run of joins should have seen and came up too seldom.
    pub fn seldom_joined(&self) -> Vec<String> {
        seldom_of("join", &JOINED, &self.joined)
    }

    /// The pairs of a call and a number that it can answer that came up too seldom, in words; under an empty list too,
    /// descents, removals, spellings, modes and nameless presences, and bases with the last three spoiled.
    pub fn seldom(&self) -> Vec<String> {
        let mut seldom = Vec::new();
        for (call, counts) in CALLS.iter().zip(&self.answered) {
            let numbers = [0].iter().chain(call.refusals).filter(|&&no| counts[no] < OFTEN);
            seldom.extend(numbers.map(|no| format!("{} {no}", call.name)));
        }
        let is_seldom = |what: &str, often| self.asked.get(what).is_none_or(|seen| seen.calls < often);
        seldom.extend(UNLISTED.into_iter().filter(|what| is_seldom(what, OFTEN)).map(String::from));
        let descents = SHAPES.map(|(shape, _)| shape).into_iter().chain(LISTED);
        let descents = descents.map(|what| format!("descent: {what}"));
        seldom.extend(descents.filter(|what| is_seldom(what, OFTEN_DRAWN)));
        seldom.extend(seldom_of("removal", &REMOVED, &self.removed));
        seldom.extend(seldom_of("spelling", &SPELT, &self.spelt));
        seldom.extend(seldom_of("mode", &MODED, &self.moded));
        seldom.extend(seldom_of("nameless", &NAMELESS, &self.nameless));
        for ((way, _), [sound, unsound]) in WAYS.iter().zip(&self.spoiled) {
            let expected = EXPECTED.iter().find(|(name, _)| name == way);
            let seen = expected.map(|(_, stays_sound)| if *stays_sound { sound } else { unsound });
            seldom.extend(seen.filter(|seen| **seen < OFTEN_SPOILED).map(|_| format!("spoiled: {way}")));
        }
        seldom
    }

    pub fn print(&self) {
        self.print_answers();
        println!("\n{:<40}{:>8}{:>8}{:>14}", "asked", "calls", "done", "longest list");
        for (what, seen) in &self.asked {
            println!("{what:<40}{:>8}{:>8}{:>14}", seen.calls, seen.done, seen.longest);
        }
        print_drawn("removed or refused", &self.removed);
        print_drawn("in another spelling", &self.spelt);
        print_drawn("with modes", &self.moded);
        print_drawn("with nameless presences", &self.nameless);
        println!("\n{:<28}{:>8}{:>10}", "spoiled", "sound", "not sound");
        for ((name, _), [sound, unsound]) in WAYS.iter().zip(&self.spoiled) {
            println!("{name:<28}{sound:>8}{unsound:>10}");
        }
        println!();
    }

    pub fn print_joined(&self) {
        print_drawn("under a join or in another order", &self.joined);
        print_seldom(&self.seldom_joined());
    }

    pub fn print_filed(&self) {
        print_drawn("files", &self.filed);
        print_seldom(&self.seldom_filed());
    }

    /// How often each number was answered, and the share of calls on sound bases that were done.
    fn print_answers(&self) {
        print!("{:<19}", "call");
        (0..NUMBERS).for_each(|no| print!("{no:>6}"));
        println!("{:>8}", "done");
        for (call, counts) in CALLS.iter().zip(&self.answered) {
            print!("{:<19}", call.name);
            for (no, count) in counts.iter().enumerate() {
                match no == 0 || call.refusals.contains(&no) {
                    true => print!("{count:>6}"),
                    false => print!("{:>6}", "."),
                }
            }
            let on_sound = counts.iter().sum::<usize>() - counts[1];
            println!("{:>7.0}%", 100.0 * counts[0] as f64 / on_sound.max(1) as f64);
        }
        let seldom = self.seldom();
        let drawn = format!("what schemas are drawn for less than {OFTEN_DRAWN}");
        let least = format!("{OFTEN} times, {drawn}, what is spoiled on purpose less than {OFTEN_SPOILED}");
        println!("pairs of a call and a number that came up less than {least}: {}", seldom.len());
        if !seldom.is_empty() {
            println!("    {}", seldom.join(", "));
        }
    }
}

/// Those that came up too seldom for what schemas are drawn for.
fn seldom_of(kind: &str, all: &[impl AsRef<str>], seen: &BTreeMap<String, usize>) -> Vec<String> {
    let all = all.iter().map(AsRef::as_ref);
    let seldom = all.filter(|what| seen.get(*what).is_none_or(|&calls| calls < OFTEN_DRAWN));
    seldom.map(|what| format!("{kind}: {what}")).collect()
}

fn print_seldom(seldom: &[String]) {
    println!("that came up less than {OFTEN_DRAWN} times: {}", seldom.len());
    seldom.iter().for_each(|what| println!("    {what}"));
    println!();
}

fn print_drawn(heading: &str, seen: &BTreeMap<String, usize>) {
    println!("\n{heading:<56}{:>8}", "calls");
    seen.iter().for_each(|(what, calls)| println!("{what:<56}{calls:>8}"));
}
