//! What the library does held to what the keeper did, whether the library is linked (`linked.rs`) or served by a
//! process of its own (`served.rs`).
//!
//! All that a call is lent stands in one area, with guards before, between and behind. The area is looked at whole
//! afterwards, so that every byte lent is compared, and every guard.
#![forbid(unsafe_code)]

use crate::calls::Call;
#[cfg(linked)]
use crate::linked::Linked;
use crate::served::Served;
use std::ops::Range;

/// What a call is lent to be changed, or what it left there.
#[derive(Clone, PartialEq, Eq)]
pub struct Lent {
    pub base: Vec<u8>,
    pub output: Vec<u8>,
}

const GUARD: [u8; 16] = [0xa5; 16];
const PARTS: [&str; 5] = ["base", "output", "first slice", "second slice", "third slice"];

pub struct Area {
    pub bytes: Vec<u8>,
    pub parts: [Range<usize>; PARTS.len()],
}

impl Area {
    /// All that the call is lent.
    pub fn of(call: &Call, lent: &Lent) -> Area {
        let [first, second, third] = call.inputs().1;
        let mut bytes = GUARD.to_vec();
        let parts = [&lent.base, &lent.output, first, second, third].map(|part| {
            let start = bytes.len();
            bytes.extend_from_slice(part);
            bytes.extend_from_slice(&GUARD);
            start..start + part.len()
        });
        Area { bytes, parts }
    }

    /// The first place where the bytes found are others, in words.
    fn difference(&self, found: &[u8]) -> Option<String> {
        if self.bytes == found {
            return None; // soon told, and the most common
        }
        let at = self.bytes.iter().zip(found).position(|(expected, found)| expected != found)?;
        let place = match self.parts.iter().position(|part| at < part.end) {
            Some(part) if at >= self.parts[part].start => {
                format!("{} at {}", PARTS[part], at - self.parts[part].start)
            }
            Some(part) => format!("guard before {}", PARTS[part]),
            None => "guard behind all".into(),
        };
        Some(format!("{place}: {} expected, {} found", self.bytes[at], found[at]))
    }
}

/// What the library answered, and the bytes of the area as it left them.
pub struct Found {
    pub answer: [usize; 4],
    pub bytes: Vec<u8>,
}

/// What the keeper answered, and what it left.
pub struct Expected {
    /// Where in the run, in words.
    pub place: String,
    pub call: Call,
    pub answer: [usize; 4],
    pub after: Lent,
}

impl Expected {
    /// The area that the call should leave.
    pub fn area(&self) -> Area {
        Area::of(&self.call, &self.after)
    }

    pub fn difference(&self, found: &Found) -> Option<String> {
        let Expected { place, call, answer, .. } = self;
        let fault = match found.answer == *answer {
            true => self.area().difference(&found.bytes)?,
            false => format!("answer {answer:?} expected, {:?} found", found.answer),
        };
        Some(format!("{place}: {fault}: {call:?}"))
    }
}

pub trait Library {
    /// Has the call made on what is lent before, and compared. Fails when no more calls can be made; `finish` then
    /// says why.
    fn compare(&mut self, before: &Lent, expected: Expected) -> Result<(), String>;

    /// Every difference, in words.
    fn finish(self: Box<Self>) -> Result<Vec<String>, String>;
}

/// The library that the program of these words serves, or without any the one that is linked.
pub fn library(program: &[String]) -> Result<Box<dyn Library>, String> {
    match program {
        [] => linked(),
        words => Ok(Box::new(Served::start(words)?)),
    }
}

#[cfg(linked)]
fn linked() -> Result<Box<dyn Library>, String> {
    Ok(Box::new(Linked::new()?))
}

#[cfg(not(linked))]
fn linked() -> Result<Box<dyn Library>, String> {
    Err("built without the library: name a PROGRAM that serves it".into())
}

#[cfg(test)]
mod tests {
    use super::{Area, Lent};
    use crate::calls::Call;

    /// Whatever byte of an area is another afterwards, that is a difference.
    #[test]
    fn every_byte_counts() {
        let call = Call::NewSds { name: "name".into() };
        let area = Area::of(&call, &Lent { base: vec![1; 40], output: vec![2; 4] });
        assert_eq!(area.difference(&area.bytes), None);
        for at in 0..area.bytes.len() {
            let mut found = area.bytes.clone();
            found[at] ^= 1;
            let expected = match at {
                16..56 => format!("base at {}: ", at - 16),
                56..72 => "guard before output: ".into(),
                72..76 => format!("output at {}: ", at - 72),
                92..96 => format!("first slice at {}: ", at - 92),
                _ => "guard ".into(),
            };
            assert!(area.difference(&found).unwrap().starts_with(&expected), "{at}");
        }
    }
}
