//! One caller of the nodes: what it lists of its calls, and which of them are lost. FORMATS.md, "Scripts" and "The report".

use crate::batch::Batch;
use crate::cluster::Cluster;
use crate::reply::{Refusal, Reply};
use crate::request::Request;
use crate::text::{Line, Lines, Span, NOWHERE};
use crate::words::push_number;
use std::collections::BTreeSet;

/// What a caller heard of a call, and so the word of a cause. FORMATS.md, "The report": CAUSES.
#[derive(Clone, Copy, PartialEq, Eq)]
pub enum Cause {
    Ok,
    Silent,
    OutOfSync,
    Refused(Refusal),
}

/// Which calls to one node are lost, by their numbers from 1 on, how many were made, and where their lines stand.
#[derive(Default)]
struct Calls {
    made: u64,
    dropped: BTreeSet<u64>,
    muted: BTreeSet<u64>,
    places: Vec<u32>,
}

/// A caller.
pub struct Caller {
    pub name: Vec<u8>,
    /// Before its lines stand: nothing in result lines, then two texts for each node, of calls and of late copies.
    pub record: Lines,
    calls: Vec<Calls>,
    /// What stands before its calls in histories, and the text of the request that is made.
    before: u16,
    asked: Span,
    /// Whether the places of calls are kept, for late copies.
    keeps_places: bool,
}

impl Caller {
    /// A caller of the nodes.
    pub fn new(name: &[u8], cluster: &mut Cluster, keeps_places: bool) -> Caller {
        let calls = (0..cluster.count()).map(|_| Calls::default()).collect();
        let before = cluster.declare(name);
        Caller { name: name.to_vec(), record: Lines::default(), calls, before, asked: cluster.ok, keeps_places }
    }

    /// The K-th next call to a node isn't delivered.
    pub fn drop_call(&mut self, node: usize, next: u64) {
        let calls = &mut self.calls[node];
        calls.dropped.insert(calls.made + next);
    }

    /// The K-th next call to a node is delivered, and its reply is lost.
    pub fn mute_call(&mut self, node: usize, next: u64) {
        let calls = &mut self.calls[node];
        calls.muted.insert(calls.made + next);
    }

    /// Makes the text of the request that is asked next.
    pub fn prepare(&mut self, cluster: &mut Cluster, request: &Request) {
        self.asked = cluster.keep_request(request);
    }

    /// Asks a node what was prepared; none where no reply is heard.
    pub fn ask(&mut self, cluster: &mut Cluster, node: usize, request: &Request) -> Option<Reply> {
        let calls = &mut self.calls[node];
        calls.made += 1;
        let is_dropped = calls.dropped.remove(&calls.made);
        let is_muted = calls.muted.remove(&calls.made);
        let (reply, told) = if is_dropped { (None, cluster.ok) } else { cluster.call(node, self.before, request, self.asked) };
        if cluster.keeps {
            let heard = match &reply {
                _ if is_dropped => cluster.texts.push(b"dropped"),
                _ if is_muted => cluster.texts.push(b"muted"),
                None => cluster.silent,
                Some(_) => told,
            };
            let line = Line { before: before_call(node), asked: self.asked, told: heard };
            let place = self.record.push(line, node_digits(node).len() + 1, &cluster.texts);
            if self.keeps_places {
                calls.places.push(place);
            }
        }
        reply.filter(|_| !is_muted)
    }

    /// A copy of the K-th call to a node arrives now, where there is such a call. Its request is read back from its text.
    pub fn send_late(&mut self, cluster: &mut Cluster, node: usize, number: u64) {
        let place = usize::try_from(number - 1).ok().and_then(|index| self.calls[node].places.get(index));
        let Some(&place) = place else {
            return self.tell(cluster, b"= late none");
        };
        let asked = self.record.get(place).asked;
        let mut room = Batch::new();
        let text = cluster.texts.get(asked).to_vec();
        if let Ok(request) = Request::read(&text, &mut room) {
            cluster.call(node, self.before + 1, &request, asked);
        }
        let told = cluster.texts.push(b"gone");
        let line = Line { before: before_call(node) + 1, asked, told };
        self.record.push(line, node_digits(node).len() + b" late ".len(), &cluster.texts);
    }

    /// Appends a result line.
    pub fn tell(&mut self, cluster: &mut Cluster, line: &[u8]) {
        if cluster.tells() && !cluster.keeps {
            cluster.told.extend_from_slice(line);
            cluster.told.push(b'\n');
        } else if cluster.keeps {
            let asked = cluster.texts.push(line);
            self.record.push(Line { before: 0, asked, told: NOWHERE }, 0, &cluster.texts);
        }
    }
}

/// The number of what stands before a call to a node in a record. Before a late copy stands the next one.
pub fn before_call(node: usize) -> u16 {
    1 + 2 * node as u16
}

/// What stands before the lines of a record, by their numbers.
pub fn all_before(nodes: usize) -> Vec<Vec<u8>> {
    let mut all = vec![Vec::new()];
    for node in 0..nodes {
        all.push([node_digits(node), b" "].concat());
        all.push([node_digits(node), b" late "].concat());
    }
    all
}

/// A node's number from 1 on.
pub fn node_digits(node: usize) -> &'static [u8] {
    const DIGITS: [&[u8]; 15] = [b"1", b"2", b"3", b"4", b"5", b"6", b"7", b"8", b"9", b"10", b"11", b"12", b"13", b"14", b"15"];
    DIGITS[node]
}

/// Appends a word for each node, each after a space.
pub fn push_causes(text: &mut Vec<u8>, causes: &[Cause]) {
    for cause in causes {
        text.push(b' ');
        match cause {
            Cause::Ok => text.extend_from_slice(b"ok"),
            Cause::Silent => text.extend_from_slice(b"silent"),
            Cause::OutOfSync => text.extend_from_slice(b"outofsync"),
            Cause::Refused(refusal) => {
                text.extend_from_slice(refusal.name().as_bytes());
                if let Some(field) = refusal.field {
                    text.push(b':');
                    push_number(text, field);
                }
            }
        }
    }
}
