//! A writer: its rounds over the nodes. MODEL.md, "A writer".

use crate::batch::{Batch, Bodies};
use crate::caller::{Caller, Cause};
use crate::cluster::Cluster;
use crate::edit::{END_SEGMENT, START_SEGMENT};
use crate::node::MOST_BATCH;
use crate::reply::{Reply, SegmentState};
use crate::request::{Head, Request};
use crate::segment::MOST_EDITS;
use crate::words::{LARGEST, LONGEST_BODY};

/// Why a task of a writer wasn't done.
pub enum Failure {
    /// No segment is open.
    Inactive,
    /// A round had no majority; a cause for each node.
    Aborted(Vec<Cause>),
    /// A node promised 2^62 already.
    Limit(u64),
    /// The limit that a batch would pass.
    TooLong(u64),
}

/// The segment that a writer has open: its start, and the txid of its next edit.
#[derive(Clone, Copy)]
struct Open {
    start: u64,
    next: u64,
}

/// The nodes of a writer, as it asks them.
pub trait Nodes {
    /// How many there are.
    fn count(&self) -> usize;
    /// What is asked next.
    fn prepare(&mut self, request: &Request);
    /// What was prepared will be asked of this node too, in the same round.
    fn send_ahead(&mut self, node: usize, request: &Request);
    /// Asks a node what was prepared; none where no reply is heard.
    fn ask(&mut self, node: usize, request: &Request) -> Option<Reply>;

    /// How many nodes are a majority. MODEL.md, "The parts".
    fn majority(&self) -> usize {
        self.count() / 2 + 1
    }
}

/// What a caller needs to make calls.
pub struct Net<'a> {
    pub caller: &'a mut Caller,
    pub cluster: &'a mut Cluster,
}

impl Nodes for Net<'_> {
    fn count(&self) -> usize {
        self.cluster.count()
    }

    fn prepare(&mut self, request: &Request) {
        self.caller.prepare(self.cluster, request);
    }

    fn send_ahead(&mut self, node: usize, request: &Request) {
        self.cluster.send_ahead(node, request);
    }

    fn ask(&mut self, node: usize, request: &Request) -> Option<Reply> {
        self.caller.ask(self.cluster, node, request)
    }
}

/// The writer of an actor.
#[derive(Clone, Default)]
pub struct Writer {
    epoch: u64,
    serial: u64,
    committed: u64,
    open: Option<Open>,
    left_out: Vec<bool>,
    /// The greatest last txid of a journal round that was done.
    pub last_journaled: u64,
}

impl Writer {
    /// Whether a segment is open.
    pub fn is_active(&self) -> bool {
        self.open.is_some()
    }

    /// The epoch that it took last.
    pub fn epoch(&self) -> u64 {
        self.epoch
    }

    /// The txid that the next edit gets.
    pub fn next(&self) -> Option<u64> {
        self.open.map(|open| open.next)
    }

    /// No segment is open any more.
    pub fn stop(&mut self) {
        self.open = None;
    }

    /// The head of the next round: each has a serial of its own.
    fn next_head(&mut self) -> Head {
        self.serial += 1;
        Head { epoch: self.epoch, serial: self.serial, committed: self.committed }
    }

    // ## Rounds

    /// One request to each node, in order of number; replies of the Ok kind are handed over. The causes come back, where a majority
    /// answered so; else the writer is stopped until its next takeover.
    fn round(&mut self, net: &mut impl Nodes, request: &Request, mut hear: impl FnMut(usize, Reply)) -> Result<Vec<Cause>, Failure> {
        let skips = matches!(request, Request::Journal(..) | Request::Finalize(..));
        let fits = has_fitting_numbers(request);
        net.prepare(request);
        (0..net.count()).filter(|&node| !(skips && self.left_out[node])).for_each(|node| net.send_ahead(node, request));
        let mut causes = Vec::with_capacity(net.count());
        for node in 0..net.count() {
            if skips && self.left_out[node] {
                causes.push(Cause::OutOfSync);
                continue;
            }
            causes.push(match net.ask(node, request) {
                None => Cause::Silent,
                Some(Reply::Refused(refusal)) => Cause::Refused(refusal),
                Some(reply) if fits && is_of_ok_kind(request, &reply) => {
                    hear(node, reply);
                    Cause::Ok
                }
                _ => Cause::Silent,
            });
        }
        if matches!(request, Request::Journal(..) | Request::Start(..)) {
            self.left_out = causes.iter().map(|cause| *cause != Cause::Ok).collect();
        }
        self.judge(net.majority(), causes)
    }

    /// Whether a majority answered with Ok.
    fn judge(&mut self, majority: usize, causes: Vec<Cause>) -> Result<Vec<Cause>, Failure> {
        if causes.iter().filter(|cause| **cause == Cause::Ok).count() >= majority {
            return Ok(causes);
        }
        self.open = None;
        Err(Failure::Aborted(causes))
    }

    // ## A takeover

    /// Takes a new epoch, recovers the newest segment and begins the first own one: the epoch and that segment's start.
    pub fn take_over(&mut self, net: &mut impl Nodes) -> Result<(u64, u64), Failure> {
        let last_journaled = self.last_journaled;
        *self = Writer { left_out: vec![false; net.count()], last_journaled, ..Writer::default() };
        let first = match self.propose(net)? {
            None => 1,
            Some(start) => self.recover(net, start)?,
        };
        self.begin(net, first)?;
        Ok((self.epoch, first))
    }

    /// Rounds 1 and 2: the new epoch, and the greatest start told as newest.
    fn propose(&mut self, net: &mut impl Nodes) -> Result<Option<u64>, Failure> {
        let mut told = 0;
        self.round(net, &Request::State, |_, reply| {
            if let Reply::State(promise) = reply {
                told = told.max(promise);
            }
        })?;
        if told >= LARGEST {
            return Err(Failure::Limit(told));
        }
        self.epoch = told + 1;
        let mut newest = None;
        self.round(net, &Request::NewEpoch(self.epoch), |_, reply| {
            if let Reply::NewEpoch(start) = reply {
                newest = newest.max(start);
            }
        })?;
        Ok(newest)
    }

    /// Rounds 3 to 5: the segment is prepared, fetched, accepted and finalised. The start of the segment after it comes back.
    fn recover(&mut self, net: &mut impl Nodes, start: u64) -> Result<u64, Failure> {
        let head = self.next_head();
        let mut answers: Vec<(usize, Option<SegmentState>)> = Vec::new();
        let causes = self.round(net, &Request::Prepare(head, start), |node, reply| {
            if let Reply::Prepared { segment, .. } = reply {
                answers.push((node, segment));
            }
        })?;
        let Some(batch) = self.fetch_best(net, start, answers, causes)? else {
            self.committed = start - 1;
            return Ok(start);
        };
        let end = batch.last().unwrap_or(start);
        let head = self.next_head();
        self.round(net, &Request::Accept(head, start, &batch), |_, _| {})?;
        self.committed = end;
        let head = self.next_head();
        self.round(net, &Request::Finalize(head, start, end), |_, _| {})?;
        Ok(end + 1)
    }

    /// The edits of the best answer, from its node; a failed fetch takes its node out of the count. None where no answer has the
    /// segment.
    fn fetch_best(
        &mut self,
        net: &mut impl Nodes,
        start: u64,
        mut answers: Vec<(usize, Option<SegmentState>)>,
        mut causes: Vec<Cause>,
    ) -> Result<Option<Batch>, Failure> {
        loop {
            let rank = |segment: &SegmentState| (segment.is_final, segment.epoch, segment.end);
            let told = answers.iter().filter_map(|&(node, segment)| Some((node, segment?)));
            let best = told.rev().max_by_key(|(_, segment)| rank(segment));
            let Some((node, segment)) = best else { return Ok(None) };
            match self.fetch(net, node, start, segment.end) {
                Ok(batch) => return Ok(Some(batch)),
                Err(cause) => causes[node] = cause,
            }
            answers.retain(|answer| answer.0 != node);
            causes = self.judge(net.majority(), causes)?;
        }
    }

    /// All edits of a segment from one node, piece by piece.
    fn fetch(&mut self, net: &mut impl Nodes, node: usize, start: u64, end: u64) -> Result<Batch, Cause> {
        let mut batch = Batch::new();
        let mut from = start;
        while from <= end {
            let request = Request::Fetch(self.next_head(), start, from);
            net.prepare(&request);
            match net.ask(node, &request) {
                Some(Reply::Edits(edits)) if edits.count <= end + 1 - from => {
                    batch.push_entries(&edits.entries, edits.count);
                    from += edits.count;
                }
                // (edits past the told end are left out)
                Some(Reply::Edits(edits)) => {
                    Bodies { entries: &edits.entries }.take((end + 1 - from) as usize).for_each(|body| batch.push(body));
                    from = end + 1;
                }
                Some(Reply::Refused(refusal)) => return Err(Cause::Refused(refusal)),
                _ => return Err(Cause::Silent),
            }
        }
        batch.close(start);
        Ok(batch)
    }

    /// Rounds 6 and 7: a segment begins, with its first record.
    fn begin(&mut self, net: &mut impl Nodes, start: u64) -> Result<(), Failure> {
        let head = self.next_head();
        self.round(net, &Request::Start(head, start), |_, _| {})?;
        self.open = Some(Open { start, next: start });
        self.journal_one(net, START_SEGMENT)
    }

    // ## What an active writer does

    /// One batch, which gets the next txids.
    pub fn journal(&mut self, net: &mut impl Nodes, batch: &mut Batch) -> Result<(), Failure> {
        let open = self.open.ok_or(Failure::Inactive)?;
        batch.close(open.next);
        let last = open.next + batch.count() - 1;
        let head = self.next_head();
        self.round(net, &Request::Journal(head, open.start, open.next, batch), |_, _| {})?;
        self.open = Some(Open { next: last + 1, ..open });
        self.committed = last;
        self.last_journaled = self.last_journaled.max(last);
        Ok(())
    }

    fn journal_one(&mut self, net: &mut impl Nodes, record: u8) -> Result<(), Failure> {
        let mut batch = Batch::new();
        batch.push(&[record]);
        self.journal(net, &mut batch)
    }

    /// The limit that a batch of so many edits, the longest of so many bytes, would pass. FORMATS.md, "The report", `toolong`: a body,
    /// a batch, and a segment that keeps room for the record that ends it.
    pub fn limit_of(&self, count: u64, longest: usize) -> Option<u64> {
        let held = self.open.map_or(0, |open| open.next - open.start);
        if longest > LONGEST_BODY {
            Some(LONGEST_BODY as u64)
        } else if count > MOST_BATCH {
            Some(MOST_BATCH)
        } else {
            (held + count >= MOST_EDITS).then_some(MOST_EDITS)
        }
    }

    /// Logs edits as one batch, unless it passes a limit.
    pub fn log(&mut self, net: &mut impl Nodes, batch: &mut Batch) -> Result<(), Failure> {
        if self.open.is_none() {
            return Err(Failure::Inactive);
        }
        match self.limit_of(batch.count(), batch.longest()) {
            Some(limit) => Err(Failure::TooLong(limit)),
            None => self.journal(net, batch),
        }
    }

    /// Ends the open segment; its last txid.
    pub fn close(&mut self, net: &mut impl Nodes) -> Result<u64, Failure> {
        let open = self.open.ok_or(Failure::Inactive)?;
        self.journal_one(net, END_SEGMENT)?;
        let last = self.committed;
        let head = self.next_head();
        self.round(net, &Request::Finalize(head, open.start, last), |_, _| {})?;
        self.open = None;
        Ok(last)
    }

    /// Ends the open segment and begins the next one; that one's start.
    pub fn roll(&mut self, net: &mut impl Nodes) -> Result<u64, Failure> {
        let start = self.close(net)? + 1;
        self.begin(net, start)?;
        Ok(start)
    }

    /// Lets the nodes remove segments that end below a txid.
    pub fn purge(&mut self, net: &mut impl Nodes, below: u64) -> Result<(), Failure> {
        if self.open.is_none() {
            return Err(Failure::Inactive);
        }
        let head = self.next_head();
        self.round(net, &Request::Purge(head, below), |_, _| {}).map(|_| ())
    }
}

/// Whether no number of a request is out of range; else no answer counts. MODEL.md, "A writer".
fn has_fitting_numbers(request: &Request) -> bool {
    let head = request.head().map_or([0; 3], |head| [head.epoch, head.serial, head.committed]);
    let last = request.batch().map_or(0, |batch| batch.last().unwrap_or(u64::MAX));
    head.into_iter().chain(request.numbers()).chain([last]).all(|number| number <= LARGEST)
}

/// Whether a reply that answers the request tells no number out of range. MODEL.md, "A writer".
fn is_of_ok_kind(request: &Request, reply: &Reply) -> bool {
    match reply {
        Reply::State(promise) => *promise <= LARGEST,
        Reply::NewEpoch(start) => start.is_none_or(|start| (1..=LARGEST).contains(&start)),
        Reply::Prepared { writer, committed, segment } => {
            let told = |segment: SegmentState| {
                segment.start == request.numbers()[0] && (segment.start..=LARGEST).contains(&segment.end) && segment.epoch <= LARGEST
            };
            *writer <= LARGEST && *committed <= LARGEST && segment.is_none_or(told)
        }
        _ => true,
    }
}
