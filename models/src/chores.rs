//! Whether the calls of a record are those of chores. MODEL.md, "What is claimed": chores are tasks
//! of the writer and tails.

use crate::batch::Batch;
use crate::edit::END_SEGMENT;
use crate::lists::{read_told, Entry, Kind};
use crate::reply::Reply;
use crate::request::Request;
use crate::words::first_word;
use crate::writer::{Nodes, Writer};

/// The lines of a record, of which a chore takes one after the other. A writer that asks what
/// doesn't come next, or asks on behind the last line, hears nothing any more, so that its task
/// ends.
struct Tape<'a> {
    lines: Vec<&'a Entry<'a>>,
    at: usize,
    nodes: usize,
    /// Whether a call was made that isn't the next line's.
    is_broken: bool,
}

/// The first line that no chore makes, where there is one. Late copies and results are passed over.
pub fn unmade_line(record: &[Entry], nodes: usize) -> Option<u64> {
    let lines = record.iter().filter(|entry| matches!(entry.kind, Kind::Call | Kind::Order)).collect();
    let mut tape = Tape { lines, at: 0, nodes, is_broken: false };
    let mut writer = Writer::default();
    while let Some(entry) = tape.next() {
        let before = tape.at;
        tape.take_chore(&mut writer, entry);
        if tape.is_broken || tape.at == before {
            return tape.next().map(|entry| entry.line);
        }
    }
    None
}

impl<'a> Tape<'a> {
    fn next(&self) -> Option<&'a Entry<'a>> {
        self.lines.get(self.at).copied()
    }

    /// Whether a line comes next that begins with such a word; no chore does.
    fn goes_on_with(&self, word: &[u8]) -> bool {
        !self.is_broken && self.next().is_some_and(|entry| first_word(entry.asked) == word)
    }

    /// Takes the calls of the chore that begins with this line; none where no chore does.
    fn take_chore(&mut self, writer: &mut Writer, entry: &Entry) {
        let mut room = Batch::new();
        let request = match entry.kind {
            Kind::Call => Request::read(entry.asked, &mut room).ok(),
            _ => None,
        };
        match request {
            Some(Request::State) => drop(writer.take_over(self)),
            Some(Request::Purge(_, below)) => drop(writer.purge(self, below)),
            Some(Request::Read(from)) => self.take_pass(from),
            Some(Request::Journal(_, _, _, batch)) if batch.count() > 1 || batch.bodies().next() != Some(&[END_SEGMENT]) => {
                drop(writer.log(self, &mut batch.clone()));
            }
            Some(Request::Journal(..)) => self.take_end(writer),
            _ => {}
        }
    }

    /// The record that ends a segment may be logged, or be a close's or a roll's: what follows it
    /// tells.
    fn take_end(&mut self, writer: &mut Writer) {
        let (first, before) = (self.at, writer.clone());
        let mut batch = Batch::new();
        batch.push(&[END_SEGMENT]);
        let _ = writer.log(self, &mut batch);
        if self.goes_on_with(b"finalize") {
            (self.at, *writer) = (first, before.clone());
            let _ = writer.close(self);
        }
        if self.goes_on_with(b"start") {
            (self.at, *writer) = (first, before);
            let _ = writer.roll(self);
        }
    }

    /// Reads of one txid, of node 1, 2 and so on, until one gives edits or all were asked. A tail
    /// may end with each that gives edits.
    fn take_pass(&mut self, from: u64) {
        for node in 0..self.nodes {
            if matches!(self.ask(node, &Request::Read(from)), Some(Reply::Edits(_))) {
                return;
            }
        }
    }
}

impl Nodes for Tape<'_> {
    fn count(&self) -> usize {
        self.nodes
    }

    fn prepare(&mut self, _: &Request) {}

    fn send_ahead(&mut self, _: usize, _: &Request) {}

    fn ask(&mut self, node: usize, request: &Request) -> Option<Reply> {
        let entry = self.next().filter(|_| !self.is_broken)?;
        let mut asked = Vec::new();
        request.push_text(&mut asked);
        if entry.kind != Kind::Call || entry.who != node || entry.asked != asked {
            self.is_broken = true;
            return None;
        }
        self.at += 1;
        read_told(entry.asked, entry.told)
    }
}
