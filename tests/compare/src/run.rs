//! Histories of random calls, each made by the independent keeper and by the library and compared.
#![forbid(unsafe_code)]

use crate::base::{from_bytes, is_sound, to_bytes, LENGTH};
use crate::calls::{apply, apply_to, Call, CALLS, TAKING_ANY_BYTES, TELLING};
use crate::coverage::{Counts, Traits};
use crate::file::{self, to_file, LONGEST};
use crate::library::{Expected, Lent, Library};
use crate::modes::{self, Gone};
use crate::nameless::{self, Since};
use crate::random::{Caller, Mode, Random};
use crate::removals;
use crate::schema::Schema;
use crate::shapes::{question, SHAPES};
use crate::spellings;
use crate::spoil::{spoiled, WAYS};

/// Questions about each schema that is drawn for descents.
const QUESTIONS: usize = 20;

/// Schemas that are drawn for removals, as many for spellings and for modes, more for nameless presences, and calls on each.
const DRAWN: usize = 10;
const DRAWN_NAMELESS: usize = 26;
const REMOVALS: usize = 20;
const RESPELLINGS: usize = 40;
const SETTINGS: usize = 40;
const NAMELESS: usize = 48;

/// What a question was answered, and its output afterwards.
#[derive(Clone, Debug, PartialEq, Eq)]
pub struct Told {
    pub answer: [usize; 4],
    pub output: Vec<u8>,
}

pub struct Run {
    pub caller: Caller,
    /// The present base, which is sound, and its schema.
    base: Vec<u8>,
    pub schema: Schema,
    /// What went from it with fewer modes than all.
    gone: Gone,
    /// What became of nameless presences in it.
    since: Since,
    /// Without one the keeper's own answers are checked, and that is all.
    library: Option<Box<dyn Library>>,
    /// Where the run is, in words.
    pub place: String,
    pub counts: Counts,
}

impl Run {
    pub fn new(library: Option<Box<dyn Library>>) -> Run {
        let schema = Schema::fresh();
        let (caller, base) = (Caller::new(0), to_bytes(&schema));
        let (gone, since, place) = (Gone::default(), Since::default(), String::new());
        Run { caller, base, schema, gone, since, library, place, counts: Counts::new() }
    }

    /// A history of so many calls and so many on spoiled bases, spread over it. It depends on nothing but the numbers.
    pub fn history(&mut self, seed: u64, number: usize, calls: usize, spoiled: usize) -> Result<(), String> {
        self.begin(seed, number)?;
        let mut done = 0;
        for call in 1..=calls {
            self.place = format!("seed {seed}, history {number}, call {call}");
            self.step()?;
            while done * calls < spoiled * call {
                self.spoiled_step()?;
                done += 1;
            }
        }
        self.check_base()?;
        for ending in [Run::descents, Run::removals, Run::spellings, Run::modes, Run::nameless] {
            self.place = format!("seed {seed}, history {number}");
            ending(self)?;
        }
        Ok(())
    }

    /// A fresh base over any bytes, to be led where the history's mode says.
    pub fn begin(&mut self, seed: u64, number: usize) -> Result<(), String> {
        self.place = format!("seed {seed}, history {number}, its beginning");
        let start = Random::new(seed).word().wrapping_add(number as u64);
        self.caller = Caller::new(Random::new(start).word());
        self.caller.mode = Mode::ALL[number % Mode::ALL.len()];
        let bytes = self.caller.random.bytes(LENGTH);
        let (_, after) = self.on_any_bytes(bytes, &Call::Fresh)?;
        (self.base, self.schema) = (after.base, Schema::fresh());
        (self.gone, self.since) = (Gone::default(), Since::default());
        self.check_base()
    }

    /// The next call, on the present base.
    pub fn step(&mut self) -> Result<(), String> {
        let call = self.caller.call(&self.schema);
        self.on_present(&call)?;
        // Reading a base costs more than all the rest.
        if self.caller.random.one_in(50) {
            self.check_base()?;
        }
        Ok(())
    }

    /// Questions about a schema of each shape.
    pub fn descents(&mut self) -> Result<(), String> {
        let place = self.place.clone();
        for (shape, draw) in SHAPES {
            self.place = format!("{place}, {shape}");
            self.draw(draw)?;
            for number in 1..=QUESTIONS {
                self.place = format!("{place}, {shape}, question {number}");
                let call = question(&mut self.caller.random, &self.schema);
                let answer = self.on_present(&call)?;
                self.counts.descend(shape, &self.schema, &call, answer);
            }
        }
        Ok(())
    }

    /// Removals on schemas drawn for them.
    pub fn removals(&mut self) -> Result<(), String> {
        self.on_drawn("removal", DRAWN, REMOVALS, removals::draw, removals::removal)
    }

    /// Calls that give names in another spelling, on schemas drawn for them.
    pub fn spellings(&mut self) -> Result<(), String> {
        self.on_drawn("respelling", DRAWN, RESPELLINGS, spellings::draw, spellings::respelling)
    }

    /// Calls that set modes, ask for them, or should keep or renew them, on schemas drawn for them.
    pub fn modes(&mut self) -> Result<(), String> {
        self.on_drawn("setting", DRAWN, SETTINGS, modes::draw, modes::call)
    }

    /// Calls that bring nameless presences, handle them, cannot mean them or list them, on schemas drawn for them.
    pub fn nameless(&mut self) -> Result<(), String> {
        self.on_drawn("nameless", DRAWN_NAMELESS, NAMELESS, nameless::draw, nameless::call)
    }

    fn on_drawn(
        &mut self,
        what: &str,
        schemas: usize,
        calls: usize,
        draw: fn(&mut Random) -> Schema,
        call: fn(&mut Random, &Schema) -> Call,
    ) -> Result<(), String> {
        let place = self.place.clone();
        for drawn in 1..=schemas {
            self.place = format!("{place}, schema {drawn}");
            self.draw(draw)?;
            for number in 1..=calls {
                self.place = format!("{place}, schema {drawn}, {what} {number}");
                let call = call(&mut self.caller.random, &self.schema);
                self.on_present(&call)?;
            }
            self.check_base()?;
        }
        Ok(())
    }

    /// A schema that is drawn takes the place of the present one.
    pub fn draw(&mut self, draw: fn(&mut Random) -> Schema) -> Result<(), String> {
        self.schema = draw(&mut self.caller.random);
        self.base = to_bytes(&self.schema);
        (self.gone, self.since) = (Gone::default(), Since::default());
        self.check_base()
    }

    /// A call on the present base.
    fn on_present(&mut self, call: &Call) -> Result<[usize; 4], String> {
        let before = self.lent(self.base.clone(), call);
        let mut after = before.clone();
        let [mut spelt, mut moded, mut blank] = [(); 3].map(|()| Traits::of(call));
        spellings::add_traits(&mut spelt, &self.schema, call);
        modes::add_traits(&mut moded, &self.schema, &self.gone, call);
        nameless::add_traits(&mut blank, &self.schema, &self.since, call);
        let (going, nameless) = (Gone::going(&self.schema, call), nameless::nameless(&self.schema));
        let answer = apply_to(&mut self.schema, &mut after.base, &mut after.output, call);
        self.compare(call, &before, answer, &after)?;
        self.counts.spell(spelt, answer);
        self.counts.set_modes(moded, answer);
        self.counts.go_nameless(blank, answer);
        if answer[0] == 0 && call.takes_any_bytes() {
            // All that was is over.
            (self.gone, self.since) = (Gone::default(), Since::default());
        } else if answer[0] == 0 && !call.asks() {
            self.gone.keep(&self.schema, going);
            self.since.keep(&nameless, &self.schema);
        }
        if answer[0] == 0 && *call == Call::WriteFile {
            self.caller.keep_file(&after.output[..answer[1]]);
        }
        self.counts.ask(&self.schema, call, before.output.len(), answer);
        self.counts.remove(&self.schema, call, answer);
        self.base = after.base;
        Ok(answer)
    }

    /// A question about the present base, with this output lent.
    pub fn ask(&mut self, call: &Call, output: &[u8]) -> Result<Told, String> {
        let told = self.told(call, output);
        self.expect(call, output, &told)?;
        Ok(told)
    }

    /// A question whose answer a law knows: the keeper and the library are held to that.
    pub fn hold(&mut self, call: &Call, output: &[u8], known: &Told) -> Result<(), String> {
        if self.told(call, output) != *known {
            let answer = known.answer;
            return Err(format!("{}: keeper breaks the law, which gives {answer:?}: {call:?}", self.place));
        }
        self.expect(call, output, known)
    }

    /// What the keeper answers; a question leaves the base alone.
    fn told(&mut self, call: &Call, output: &[u8]) -> Told {
        let mut output = output.to_vec();
        let answer = apply_to(&mut self.schema, &mut [], &mut output, call);
        Told { answer, output }
    }

    fn expect(&mut self, call: &Call, output: &[u8], Told { answer, output: after }: &Told) -> Result<(), String> {
        let [before, after] =
            [output, after].map(|output| Lent { base: self.base.clone(), output: output.to_vec() });
        self.compare(call, &before, *answer, &after)
    }

    /// A call on the present base spoiled, which tells whether that is sound; the present base stays.
    pub fn spoiled_step(&mut self) -> Result<(), String> {
        let (way, base) = loop {
            let way = self.caller.random.below(WAYS.len());
            let base = spoiled(&WAYS[way].1, &mut self.caller.random, &self.base, &self.schema);
            if base != self.base {
                break (way, base);
            }
        };
        let place = self.place.clone();
        self.place += &format!(", {}", WAYS[way].0);
        if self.caller.random.one_in(10) {
            self.on_any_bytes(base.clone(), &Call::Fresh)?;
        }
        if self.caller.random.one_in(5) {
            let read = self.caller.read_file(&self.schema);
            self.on_any_bytes(base.clone(), &read)?;
        }
        let telling: Vec<usize> = (0..CALLS.len()).filter(|call| !TAKING_ANY_BYTES.contains(call)).collect();
        let call = self.caller.any_of(&self.schema, &telling);
        let (answer, after) = self.on_any_bytes(base, &call)?;
        self.counts.spoiled[way][usize::from(answer[0] == 1)] += 1;
        if answer[0] == 0 && !is_sound(&after.base) {
            return Err(format!("{}: keeper leaves a base that is not sound: {call:?}", self.place));
        }
        self.place = place;
        Ok(())
    }

    pub fn on_any_bytes(&mut self, base: Vec<u8>, call: &Call) -> Result<([usize; 4], Lent), String> {
        let output = self.caller.output(&self.schema, call);
        self.on_bytes(base, output, call)
    }

    /// The same with an output of so many bytes.
    pub fn on_bytes(&mut self, base: Vec<u8>, output: usize, call: &Call) -> Result<([usize; 4], Lent), String> {
        let before = Lent { base, output: self.caller.random.bytes(output) };
        let mut after = before.clone();
        let answer = apply(&mut after.base, &mut after.output, call);
        self.compare(call, &before, answer, &after)?;
        Ok((answer, after))
    }

    fn lent(&mut self, base: Vec<u8>, call: &Call) -> Lent {
        Lent { base, output: self.output(call) }
    }

    /// An output for the call, of any bytes.
    pub fn output(&mut self, call: &Call) -> Vec<u8> {
        let length = self.caller.output(&self.schema, call);
        self.caller.random.bytes(length)
    }

    /// The keeper's answer and what it left are checked, and compared with the library's.
    fn compare(&mut self, call: &Call, before: &Lent, answer: [usize; 4], after: &Lent) -> Result<(), String> {
        check(call, before, answer, after).map_err(|fault| format!("{}: keeper {fault}: {call:?}", self.place))?;
        self.counts.answered[call.index()][answer[0]] += 1;
        match &mut self.library {
            Some(library) => {
                let (place, call, after) = (self.place.clone(), call.clone(), after.clone());
                library.compare(before, Expected { place, call, answer, after })
            }
            None => Ok(()),
        }
    }

    /// The present base is sound, and the one base of the schema; so is its file.
    fn check_base(&self) -> Result<(), String> {
        match from_bytes(&self.base) {
            Some(schema) if schema == self.schema && to_bytes(&schema) == self.base => {}
            _ => return Err(format!("{}: the keeper's base is not that of its schema", self.place)),
        }
        let file = to_file(&self.schema);
        match file::read(&file) {
            Ok(schema) if schema == self.schema && file.len() <= LONGEST => Ok(()),
            _ => Err(format!("{}: the keeper's file is not that of its schema", self.place)),
        }
    }

    /// What was counted, and every difference in words.
    pub fn finish(self) -> Result<(Counts, Vec<String>), String> {
        let differences = self.library.map_or(Ok(Vec::new()), |library| library.finish())?;
        Ok((self.counts, differences))
    }
}

/// What holds of any call.
fn check(call: &Call, before: &Lent, answer: [usize; 4], after: &Lent) -> Result<(), String> {
    let [no, values @ ..] = answer;
    if no != 0 && !CALLS[call.index()].refusals.contains(&no) {
        return Err(format!("answers {no}, which is none of its numbers"));
    }
    let zeros = if TELLING.contains(&no) { &values[1..] } else { &values };
    if no != 0 && zeros.iter().any(|&value| value != 0) {
        return Err(format!("refuses with {answer:?}, which tells too much"));
    }
    if no != 0 && after != before {
        return Err(format!("refuses with {answer:?} and changes something"));
    }
    if call.asks() && after.base != before.base {
        return Err("asks and changes the base".into());
    }
    let written = call.written(answer);
    if written > before.output.len() || after.output[written..] != before.output[written..] {
        return Err("writes or counts beyond what there is".into());
    }
    match (call, no) {
        (Call::ReadFile { file }, 0) if !is_written_as(&after.base, &file.0) => {
            Err("reads a file that its base is not written as".into())
        }
        (Call::WriteFile, 0) if !is_written_as(&before.base, &after.output[..written]) => {
            Err("writes a file that is not read as its base".into())
        }
        _ => Ok(()),
    }
}

/// Whether the base is sound, written as the file and read from it, and the file no longer than one can be.
fn is_written_as(base: &[u8], file: &[u8]) -> bool {
    let is_written = from_bytes(base).is_some_and(|schema| to_file(&schema) == file);
    let is_read = file::read(file).is_ok_and(|schema| to_bytes(&schema) == base);
    is_written && is_read && file.len() <= LONGEST
}
