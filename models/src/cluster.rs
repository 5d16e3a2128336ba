//! The nodes of a play, each over a disk in memory, and what each lists of its calls. FORMATS.md, "Scripts" and "The report".

use crate::disk::{Choice, MemoryDisk};
use crate::node::Node;
use crate::opening;
use crate::pipes::FarNode;
use crate::reply::{Reason, Refusal, Reply, SegmentState};
use crate::request::Request;
use crate::script::Order;
use crate::table::Kind;
use crate::text::{Line, Lines, Span, Texts};
use crate::words::{push_next_number, push_number};
use std::collections::BTreeMap;

/// Where a node is stopped inside a call. FORMATS.md, "Scripts", `stop` and `cut`.
#[derive(Clone, Copy)]
enum Inside {
    Effects(u64),
    Calls(u64, Choice),
}

/// A node that is up, or the disk of one that is down.
enum State {
    Up(Node<MemoryDisk>),
    Down(MemoryDisk),
}

/// What a node keeps beside its segments.
pub struct Numbers {
    pub promised: u64,
    pub writer: u64,
    pub committed: u64,
    pub known: u64,
    pub serial: u64,
    pub open: Option<u64>,
    pub is_up: bool,
}

/// One node: how it is, the stop that it holds (the calls until then, and where inside), and its history.
pub struct Seat {
    state: State,
    arming: Option<(u64, Inside)>,
    history: Lines,
}

impl Seat {
    /// A fresh node.
    pub fn new() -> Seat {
        let node = Node::new(MemoryDisk::default(), [0; 3], BTreeMap::new());
        Seat { state: State::Up(node), arming: None, history: Lines::default() }
    }

    /// The node goes down; its disk stays.
    fn go_down(&mut self) {
        let down = State::Down(MemoryDisk::default());
        self.state = match std::mem::replace(&mut self.state, down) {
            State::Up(node) => State::Down(node.disk),
            down => down,
        };
        self.arming = None;
    }

    /// The node comes up with what it stored.
    fn come_up(&mut self) {
        let down = State::Down(MemoryDisk::default());
        self.state = match std::mem::replace(&mut self.state, down) {
            State::Down(disk) => match opening::open(disk) {
                Ok(node) => State::Up(node),
                Err((disk, _)) => State::Down(disk),
            },
            up => up,
        };
    }

    /// Does something with the node as it stands; one that is down is opened for that, in a copy.
    fn look<T>(&self, is_up: bool, look: impl FnOnce(&Node<MemoryDisk>, bool) -> T) -> Option<T> {
        match &self.state {
            State::Up(node) => Some(look(node, is_up)),
            State::Down(disk) => opening::open(disk.clone()).ok().map(|node| look(&node, false)),
        }
    }

    /// What it keeps beside its segments.
    pub fn numbers(&self) -> Numbers {
        let numbers = |node: &Node<MemoryDisk>, is_up| Numbers {
            promised: node.promised,
            writer: node.writer,
            committed: node.committed,
            known: node.known,
            serial: node.serial,
            open: node.open,
            is_up,
        };
        let none = Numbers { promised: 0, writer: 0, committed: 0, known: 0, serial: 0, open: None, is_up: false };
        self.look(true, numbers).unwrap_or(none)
    }

    /// The starts of its segments.
    pub fn starts(&self) -> Vec<u64> {
        self.look(true, |node, _| node.segments.keys().copied().collect()).unwrap_or_default()
    }

    /// The segment with that start; one without an edit ends below it.
    pub fn segment(&self, start: u64) -> Option<SegmentState> {
        self.look(true, |node, _| {
            let segment = node.segments.get(&start)?;
            let (is_final, is_accepted) = (segment.kind == Kind::Final, segment.kind == Kind::Accepted);
            Some(SegmentState { start, end: segment.end(), epoch: segment.epoch, is_final, is_accepted })
        })?
    }

    /// The request at the node: its reply, or how many effects stand where the node was stopped inside.
    pub fn answer(&mut self, request: &Request) -> Result<Reply, u64> {
        let State::Up(node) = &mut self.state else {
            return Ok(Reply::Refused(Refusal::bare(Reason::Down)));
        };
        if let Some((left, inside)) = &mut self.arming {
            *left = left.saturating_sub(1);
            if *left == 0 {
                let stand = match *inside {
                    Inside::Effects(effects) => node.stop(request, effects),
                    Inside::Calls(calls, choice) => node.cut(request, calls, choice),
                };
                self.go_down();
                return Err(stand);
            }
        }
        node.answer(request).map_err(|_| 0)
    }

    /// Does what the operator wants; whether the node wasn't already so.
    pub fn operate(&mut self, order: Order) -> bool {
        let is_up = matches!(self.state, State::Up(_));
        match order {
            Order::Kill => self.go_down(),
            Order::Restart => self.come_up(),
            Order::Stop(calls, effects) if is_up => self.arming = Some((calls, Inside::Effects(effects))),
            Order::Cut(calls, inside, choice) if is_up => self.arming = Some((calls, Inside::Calls(inside, choice))),
            Order::Stop(..) | Order::Cut(..) => {}
        }
        is_up != matches!(order, Order::Restart)
    }
}

/// All nodes of a play, and the texts of all lists.
pub struct Cluster {
    seats: Vec<Seat>,
    /// The nodes of `lead`, each in a process of its own; there are no seats then.
    far: Vec<FarNode>,
    /// The result lines of `lead`.
    pub told: Vec<u8>,
    /// Whether histories and records are kept; else nothing is written at all.
    pub keeps: bool,
    pub texts: Texts,
    /// Replies that come often.
    pub ok: Span,
    pub silent: Span,
    /// What stands before a line of a history: nothing, then two texts for each caller, of its calls and of its late copies.
    pub callers: Vec<Vec<u8>>,
    scratch: Vec<u8>,
    /// How many bytes the histories have.
    pub length: usize,
}

impl Cluster {
    /// So many fresh nodes.
    pub fn new(count: usize, keeps: bool) -> Cluster {
        let mut texts = Texts::default();
        let (ok, silent) = (texts.push(b"ok"), texts.push(b"silent"));
        let seats = (0..count).map(|_| Seat::new()).collect();
        let (far, told) = (Vec::new(), Vec::new());
        Cluster { seats, far, told, keeps, texts, ok, silent, callers: vec![b"ops ".to_vec()], scratch: Vec::new(), length: 0 }
    }

    /// Nodes at the far ends of pipes.
    pub fn over(far: Vec<FarNode>) -> Cluster {
        Cluster { far, ..Cluster::new(0, false) }
    }

    /// Whether results are told.
    pub fn tells(&self) -> bool {
        self.keeps || !self.far.is_empty()
    }

    /// A caller is declared; the number of what stands before its calls. Before its late copies stands the next one.
    pub fn declare(&mut self, name: &[u8]) -> u16 {
        self.callers.push([name, b" "].concat());
        self.callers.push([name, b" late "].concat());
        self.callers.len() as u16 - 2
    }

    /// How many nodes there are.
    pub fn count(&self) -> usize {
        self.seats.len().max(self.far.len())
    }

    /// The final segments that hold an edit, of a node that is up. It's no call: a stop that the node holds stays.
    pub fn final_segments(&self, node: usize) -> Option<Vec<SegmentState>> {
        match &self.seats[node].state {
            State::Up(node) => Some(node.final_segments()),
            State::Down(_) => None,
        }
    }

    /// The edits of a node from a txid on. It's no call of the play: a stop that the node holds stays.
    pub fn read(&mut self, node: usize, from: u64) -> Option<Reply> {
        match &mut self.seats[node].state {
            State::Up(node) => node.answer(&Request::Read(from)).ok(),
            State::Down(_) => Some(Reply::Refused(Refusal::bare(Reason::Down))),
        }
    }

    /// How many nodes are a majority. MODEL.md, "The parts".
    pub fn majority(&self) -> usize {
        self.count() / 2 + 1
    }

    /// Keeps the text of a request, where lists are kept.
    pub fn keep_request(&mut self, request: &Request) -> Span {
        if !self.keeps {
            return self.ok;
        }
        self.scratch.clear();
        request.push_text(&mut self.scratch);
        self.texts.push(&self.scratch)
    }

    /// Keeps what a node answered, or that it was stopped.
    fn keep_answer(&mut self, answer: &Result<Reply, u64>) -> Span {
        self.scratch.clear();
        match answer {
            Ok(Reply::Ok) => return self.ok,
            Ok(reply) => reply.push_text(&mut self.scratch),
            Err(stand) => {
                self.scratch.extend_from_slice(b"stopped ");
                push_number(&mut self.scratch, *stand);
            }
        }
        self.texts.push(&self.scratch)
    }

    /// Writes a request to a far node before the replies to others are read, so that the nodes work side by side.
    pub fn send_ahead(&mut self, node: usize, request: &Request) {
        if let Some(far) = self.far.get_mut(node) {
            far.send(request);
        }
    }

    /// A call reaches a node: `before` is the number of what stands before its line. The reply with its text; no reply where the node
    /// was stopped inside the call.
    pub fn call(&mut self, node: usize, before: u16, request: &Request, asked: Span) -> (Option<Reply>, Span) {
        if let Some(far) = self.far.get_mut(node) {
            return (far.hear(request), self.ok);
        }
        let answer = self.seats[node].answer(request);
        let mut told = self.ok;
        if self.keeps {
            told = self.keep_answer(&answer);
            let length = self.callers[usize::from(before)].len();
            self.push(node, Line { before, asked, told }, length);
        }
        (answer.ok(), told)
    }

    fn push(&mut self, node: usize, line: Line, before: usize) {
        let history = &mut self.seats[node].history;
        let length = history.length();
        history.push(line, before, &self.texts);
        self.length += history.length() - length;
    }

    /// The operator does something with a node; the texts of its line.
    pub fn operate(&mut self, node: usize, order: Order) -> (Span, Span) {
        let is_done = self.seats[node].operate(order);
        let asked = self.texts.push(&order_text(order));
        let told = self.texts.push(if is_done { b"done" } else { b"idle" });
        self.push(node, Line { before: 0, asked, told }, b"ops ".len());
        (asked, told)
    }

    /// The histories in the order of the nodes, what stands before their lines, and all texts.
    pub fn into_parts(self) -> (Vec<Lines>, Vec<Vec<u8>>, Texts) {
        (self.seats.into_iter().map(|seat| seat.history).collect(), self.callers, self.texts)
    }
}

/// The text of what the operator wants.
fn order_text(order: Order) -> Vec<u8> {
    let mut text = Vec::new();
    match order {
        Order::Kill => text.extend_from_slice(b"kill"),
        Order::Restart => text.extend_from_slice(b"restart"),
        Order::Stop(calls, effects) => {
            text.extend_from_slice(b"stop");
            push_next_number(&mut text, calls);
            push_next_number(&mut text, effects);
        }
        Order::Cut(calls, inside, choice) => {
            text.extend_from_slice(b"cut");
            push_next_number(&mut text, calls);
            push_next_number(&mut text, inside);
            text.extend_from_slice(match choice {
                Choice::Old => b" old",
                Choice::New => b" new",
                Choice::A5 => b" a5",
            });
        }
    }
    text
}
