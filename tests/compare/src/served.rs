//! The library in a process of its own, `tests/c/serve.c`: on another machine than x86-64 that runs under an emulator.
//!
//! An area goes to the process and comes back whole. Requests are written ahead; a thread of its own reads the replies
//! and compares them.
#![forbid(unsafe_code)]

use crate::base::LENGTH;
use crate::calls::{Call, CALLS};
use crate::file::MOST;
use crate::library::{Area, Expected, Found, Lent, Library};
use std::io::{BufRead, BufReader, BufWriter, Read, Write};
use std::process::{Child, ChildStdin, ChildStdout, Command, Stdio};
use std::sync::mpsc::{sync_channel, Receiver, SyncSender};
use std::thread::{spawn, JoinHandle};

/// What a pipe holds.
const BUFFER: usize = 1 << 16;

/// So many replies may be waited for: more than there are requests in a full buffer, which have over 128 bytes each.
/// So the one who writes requests never waits for replies to what is still unwritten.
const AHEAD: usize = BUFFER / 128;

/// The end of the process that takes requests.
pub struct Requests {
    input: BufWriter<ChildStdin>,
    /// For each of `CALLS` the place of its function among those that are served.
    functions: [usize; CALLS.len()],
}

/// The end of the process that gives replies.
pub struct Replies {
    output: BufReader<ChildStdout>,
    process: Child,
}

pub struct Reply {
    pub found: Found,
    /// That the calls took together.
    pub nanoseconds: u64,
}

/// Starts the process, by its words.
pub fn start(words: &[String]) -> Result<(Requests, Replies), String> {
    let fault = |fault: std::io::Error| format!("{}: {fault}", words.join(" "));
    let (program, arguments) = words.split_first().ok_or("no program that serves the library")?;
    let mut command = Command::new(program);
    let mut process =
        command.args(arguments).stdin(Stdio::piped()).stdout(Stdio::piped()).spawn().map_err(fault)?;
    let input = BufWriter::with_capacity(BUFFER, process.stdin.take().expect("piped"));
    let mut output = BufReader::with_capacity(BUFFER, process.stdout.take().expect("piped"));
    let mut line = String::new();
    output.read_line(&mut line).map_err(fault)?;
    let mut served = line.split_whitespace();
    if served.next() != Some(&LENGTH.to_string()) {
        return Err(format!("a base has {LENGTH} bytes, but not in the library: {line:?}"));
    }
    if served.next() != Some(&MOST.to_string()) {
        return Err(format!("a file has {MOST} bytes at most, but not in the library: {line:?}"));
    }
    let functions = places_in(&served.collect::<Vec<_>>())?;
    Ok((Requests { input, functions }, Replies { output, process }))
}

/// For each of `CALLS` the place of its name, where the names are those of all calls and no others.
fn places_in(names: &[&str]) -> Result<[usize; CALLS.len()], String> {
    if let Some(name) = names.iter().find(|name| CALLS.iter().all(|call| call.name != **name)) {
        return Err(format!("the library has {name}, which is no call"));
    }
    let mut places = [0; CALLS.len()];
    for (place, call) in places.iter_mut().zip(&CALLS) {
        let found = names.iter().position(|name| *name == call.name);
        *place = found.ok_or_else(|| format!("the library lacks {}", call.name))?;
    }
    Ok(places)
}

impl Requests {
    /// Asks for the call to be made so many times.
    pub fn write(&mut self, call: &Call, lent: &Lent, times: usize) -> std::io::Result<()> {
        let area = Area::of(call, lent);
        let parts = area.parts.iter().flat_map(|part| [part.start, part.len()]);
        let head = [self.functions[call.index()], times]
            .into_iter()
            .chain(call.inputs().0)
            .chain(parts)
            .chain([area.bytes.len()]);
        for word in head {
            self.input.write_all(&(word as u64).to_le_bytes())?;
        }
        self.input.write_all(&area.bytes)
    }

    pub fn flush(&mut self) -> std::io::Result<()> {
        self.input.flush()
    }
}

impl Replies {
    /// The next reply, to a call that was lent an area of the length.
    pub fn read(&mut self, length: usize) -> std::io::Result<Reply> {
        let mut word = || {
            let mut bytes = [0; 8];
            self.output.read_exact(&mut bytes).map(|()| u64::from_le_bytes(bytes))
        };
        let answer = [word()? as usize, word()? as usize, word()? as usize, word()? as usize];
        let nanoseconds = word()?;
        let mut bytes = vec![0; length];
        self.output.read_exact(&mut bytes)?;
        Ok(Reply { found: Found { answer, bytes }, nanoseconds })
    }

    /// Reads the replies that are expected, and gives every difference in words.
    fn compare(mut self, expected: Receiver<Expected>) -> Result<Vec<String>, String> {
        let mut differences = Vec::new();
        for expected in expected {
            let length = expected.area().bytes.len();
            let ended = |fault| format!("{}: {fault}: {:?}", expected.place, expected.call);
            let reply = self.read(length).map_err(ended)?;
            differences.extend(expected.difference(&reply.found));
        }
        match self.process.wait() {
            Ok(status) if status.success() => Ok(differences),
            ended => Err(format!("the process that serves the library ended: {ended:?}")),
        }
    }
}

/// The process and the thread that compares.
pub struct Served {
    requests: Requests,
    expected: SyncSender<Expected>,
    comparing: JoinHandle<Result<Vec<String>, String>>,
}

impl Served {
    pub fn start(words: &[String]) -> Result<Served, String> {
        let (requests, replies) = start(words)?;
        let (expected, to_compare) = sync_channel(AHEAD);
        Ok(Served { requests, expected, comparing: spawn(move || replies.compare(to_compare)) })
    }
}

/// No more calls can be made when the process has ended.
impl Library for Served {
    fn compare(&mut self, before: &Lent, expected: Expected) -> Result<(), String> {
        let place = expected.place.clone();
        self.requests.write(&expected.call, before, 1).map_err(|fault| format!("{place}: {fault}"))?;
        self.expected.send(expected).map_err(|fault| format!("{place}: {fault}"))
    }

    fn finish(self: Box<Self>) -> Result<Vec<String>, String> {
        let Served { requests, expected, comparing } = *self;
        drop(requests); // What is still unwritten is written, and the process ends.
        drop(expected);
        comparing.join().expect("the comparing thread doesn't panic")
    }
}

#[cfg(test)]
mod tests {
    use super::places_in;
    use crate::calls::CALLS;

    #[test]
    fn every_call_is_served_and_nothing_else() {
        let mut names = CALLS.map(|call| call.name).to_vec();
        names.reverse();
        assert_eq!(places_in(&names), Ok(std::array::from_fn(|call| CALLS.len() - 1 - call)));
        assert_eq!(places_in(&names[1..]), Err(format!("the library lacks {}", names[0])));
        names.push("other");
        assert_eq!(places_in(&names), Err("the library has other, which is no call".into()));
    }
}
