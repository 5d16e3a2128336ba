//! The requests of a node and their texts. FORMATS.md, "Requests".

use crate::batch::{Batch, Bodies};
use crate::words::{self, push_hex, push_next_number};

/// A rule that a line breaks, by its number in the tables of FORMATS.md.
pub type Rule = u64;

/// The head of a writer's request: its epoch, the serial under that epoch, and the committed txid that the writer knows.
#[derive(Clone, Copy)]
pub struct Head {
    pub epoch: u64,
    pub serial: u64,
    pub committed: u64,
}

/// A request. FORMATS.md, "Requests".
#[derive(Clone, Copy)]
pub enum Request<'a> {
    State,
    NewEpoch(u64),
    Start(Head, u64),
    Journal(Head, u64, u64, &'a Batch),
    Finalize(Head, u64, u64),
    Prepare(Head, u64),
    Fetch(Head, u64, u64),
    Accept(Head, u64, &'a Batch),
    Purge(Head, u64),
    Read(u64),
    Manifest,
}

/// The words of each request: its name, and how many numbers and whether bodies follow. FORMATS.md, "Requests".
const SHAPES: [(&[u8], usize, bool); 11] = [
    (b"state", 0, false),
    (b"new", 1, false),
    (b"start", 4, false),
    (b"journal", 5, true),
    (b"finalize", 5, false),
    (b"prepare", 4, false),
    (b"fetch", 5, false),
    (b"accept", 4, true),
    (b"purge", 4, false),
    (b"read", 1, false),
    (b"manifest", 0, false),
];

impl<'a> Request<'a> {
    /// Reads a request line; its bodies are put into the room. Else the first rule that it breaks.
    pub fn read(line: &[u8], room: &'a mut Batch) -> Result<Request<'a>, Rule> {
        let name = words::first_word(line);
        let &(_, numbers, has_bodies) = SHAPES.iter().find(|shape| shape.0 == name).ok_or(2_u64)?;
        let count = words::split_words(line).count();
        let fits = if has_bodies { count > numbers + 1 } else { count == numbers + 1 };
        if !fits || words::has_stray_space(line) {
            return Err(3);
        }
        let mut rest = words::split_words(line).skip(1);
        let mut told = [0; 5];
        for (place, number) in told.iter_mut().take(numbers).enumerate() {
            let word = rest.next().ok_or(3_u64)?;
            *number = words::read_number(word).filter(|&told| told >= least(name, place)).ok_or(7_u64)?;
        }
        if has_bodies {
            room.clear();
            if !rest.all(|word| room.push_word(word)) {
                return Err(8);
            }
            room.close(told[numbers - 1]);
        }
        Ok(Request::of(name, told, room))
    }

    /// The request of this name with these numbers and bodies.
    fn of(name: &[u8], told: [u64; 5], batch: &'a Batch) -> Request<'a> {
        let head = Head { epoch: told[0], serial: told[1], committed: told[2] };
        match name {
            b"state" => Request::State,
            b"new" => Request::NewEpoch(told[0]),
            b"start" => Request::Start(head, told[3]),
            b"journal" => Request::Journal(head, told[3], told[4], batch),
            b"finalize" => Request::Finalize(head, told[3], told[4]),
            b"prepare" => Request::Prepare(head, told[3]),
            b"fetch" => Request::Fetch(head, told[3], told[4]),
            b"accept" => Request::Accept(head, told[3], batch),
            b"purge" => Request::Purge(head, told[3]),
            b"read" => Request::Read(told[0]),
            _ => Request::Manifest,
        }
    }

    /// The head, of a request that has one.
    pub fn head(&self) -> Option<Head> {
        match *self {
            Request::Start(head, _)
            | Request::Journal(head, ..)
            | Request::Finalize(head, ..)
            | Request::Prepare(head, _)
            | Request::Fetch(head, ..)
            | Request::Accept(head, ..)
            | Request::Purge(head, _) => Some(head),
            _ => None,
        }
    }

    /// The request's numbers behind its head.
    pub fn numbers(&self) -> [u64; 2] {
        match *self {
            Request::State | Request::Manifest => [0, 0],
            Request::NewEpoch(number)
            | Request::Read(number)
            | Request::Start(_, number)
            | Request::Prepare(_, number)
            | Request::Accept(_, number, _)
            | Request::Purge(_, number) => [number, 0],
            Request::Finalize(_, start, other) | Request::Fetch(_, start, other) | Request::Journal(_, start, other, _) => [start, other],
        }
    }

    /// The bodies, of a request that has any.
    pub fn batch(&self) -> Option<&'a Batch> {
        match *self {
            Request::Journal(_, _, _, batch) | Request::Accept(_, _, batch) => Some(batch),
            _ => None,
        }
    }

    /// Appends the request's text.
    pub fn push_text(&self, text: &mut Vec<u8>) {
        text.extend_from_slice(self.name());
        if let Some(head) = self.head() {
            push_next_number(text, head.epoch);
            push_next_number(text, head.serial);
            push_next_number(text, head.committed);
        }
        let count = match self {
            Request::State | Request::Manifest => 0,
            Request::Finalize(..) | Request::Fetch(..) | Request::Journal(..) => 2,
            _ => 1,
        };
        for &number in &self.numbers()[..count] {
            push_next_number(text, number);
        }
        if let Some(batch) = self.batch() {
            push_bodies(text, batch.bodies());
        }
    }

    fn name(&self) -> &'static [u8] {
        match self {
            Request::State => b"state",
            Request::NewEpoch(_) => b"new",
            Request::Start(..) => b"start",
            Request::Journal(..) => b"journal",
            Request::Finalize(..) => b"finalize",
            Request::Prepare(..) => b"prepare",
            Request::Fetch(..) => b"fetch",
            Request::Accept(..) => b"accept",
            Request::Purge(..) => b"purge",
            Request::Read(_) => b"read",
            Request::Manifest => b"manifest",
        }
    }
}

/// Appends each body after a space.
pub fn push_bodies(text: &mut Vec<u8>, bodies: Bodies) {
    for body in bodies {
        text.push(b' ');
        push_hex(text, body);
    }
}

/// The least value of a number: C, END, MIN and the E of `new` may be 0. FORMATS.md, "Requests".
fn least(name: &[u8], place: usize) -> u64 {
    match (name, place) {
        (b"new", 0) | (_, 2) | (b"finalize", 4) | (b"purge", 3) => 0,
        _ => 1,
    }
}
