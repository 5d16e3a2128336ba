//! `node`: the node of the current folder answers the request lines of the standard input. FORMATS.md, "The program".

use crate::batch::Batch;
use crate::ends::{self, Ending};
use crate::folder::Folder;
use crate::node::Node;
use crate::opening::{self, OpeningFault};
use crate::recent::Recent;
use crate::request::Request;
use std::fs::TryLockError;

const LONGEST_LINE: usize = 1_048_576;
const LONGEST_INPUT: u64 = 1_073_741_824;

/// The current folder, locked as long as it is there.
pub fn open_folder() -> Result<Folder, Ending> {
    let folder = Folder::open().map_err(|_| Ending::DiskFault)?;
    match folder.top().try_lock() {
        Ok(()) => Ok(folder),
        Err(TryLockError::WouldBlock) => Err(Ending::Locked),
        Err(TryLockError::Error(_)) => Err(Ending::DiskFault),
    }
}

/// The node of a folder.
pub fn open_node(folder: Folder) -> Result<Node<Folder>, Ending> {
    match opening::open(folder) {
        Ok(mut node) => {
            node.recent = Some(Recent::default());
            Ok(node)
        }
        Err((_, OpeningFault::Disk)) => Err(Ending::DiskFault),
        Err((_, OpeningFault::BadFile(name))) => Err(Ending::BadFile(name.text())),
    }
}

/// Serves the node of the current folder until the input ends.
pub fn serve() -> Ending {
    match open_folder().and_then(open_node) {
        Ok(node) => Session { node, pending: Vec::new(), taken: 0, line: 0 }.run(),
        Err(ending) => ending,
    }
}

/// A session: the node, and what was read of the input and isn't answered yet.
struct Session {
    node: Node<Folder>,
    pending: Vec<u8>,
    taken: usize,
    line: u64,
}

impl Session {
    /// Each reply is written before the next line is read.
    fn run(&mut self) -> Ending {
        let mut room = Batch::new();
        let mut reply = Vec::new();
        let mut total = 0;
        loop {
            let length = match self.next_line() {
                Ok(Some(length)) => length,
                Ok(None) => return Ending::Ok(Vec::new()),
                Err(ending) => return ending,
            };
            total += length as u64 + 1;
            if total > LONGEST_INPUT + 1 {
                return Ending::Limit(LONGEST_INPUT);
            }
            self.line += 1;
            let line = &self.pending[self.taken..self.taken + length];
            let request = match Request::read(line, &mut room) {
                Ok(request) => request,
                Err(rule) => return Ending::BadScript { line: self.line, rule },
            };
            reply.clear();
            match self.node.answer(&request) {
                Ok(told) => told.push_text(&mut reply),
                Err(_) => return Ending::DiskFault,
            }
            reply.push(b'\n');
            if ends::write(&reply).is_err() {
                return Ending::WriteFault;
            }
            self.taken += length + 1;
        }
    }

    /// How many bytes the next line has; none where there is none. A last line without a line feed counts.
    fn next_line(&mut self) -> Result<Option<usize>, Ending> {
        let mut seen = 0;
        loop {
            let rest = self.pending.get(self.taken..).unwrap_or(&[]);
            if let Some(place) = rest[seen..].iter().position(|&byte| byte == b'\n') {
                let length = seen + place;
                return if length > LONGEST_LINE { Err(Ending::Limit(LONGEST_LINE as u64)) } else { Ok(Some(length)) };
            }
            seen = rest.len();
            if seen > LONGEST_LINE {
                return Err(Ending::Limit(LONGEST_LINE as u64));
            }
            if !self.read_more()? {
                return Ok((seen > 0).then_some(seen));
            }
        }
    }

    /// Reads on; false at the end of the input.
    fn read_more(&mut self) -> Result<bool, Ending> {
        self.pending.drain(..self.taken.min(self.pending.len()));
        self.taken = 0;
        let length = self.pending.len();
        self.pending.resize(length + 64 * 1024, 0);
        let count = ends::read(&mut self.pending[length..]);
        self.pending.truncate(length + *count.as_ref().unwrap_or(&0));
        count.map(|count| count > 0).map_err(|_| Ending::ReadFault)
    }
}
