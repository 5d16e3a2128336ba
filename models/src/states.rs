//! The state of each node after each event of a report whose lists agree. FORMATS.md, "States";
//! MODEL.md, "What is claimed", has the epoch order.

use crate::batch::Batch;
use crate::cluster::Seat;
use crate::ends::Ending;
use crate::json::Object;
use crate::judge::{answer, judge};
use crate::lists::{read_order, Entry, Kind, Lists};
use crate::reply::{Reply, SegmentState};
use crate::request::Request;
use crate::script::{BadLine, Order};
use crate::words::{push_number, read_number};
use std::collections::BTreeSet;

/// What a line of a history is sorted by: the promise after the last line that moved its node, and
/// that line's place in its caller's record, or 0; none before the node moved.
type Key = Option<(u64, usize)>;

/// A line of a history in the order of all: its text behind the event's number, and its place in
/// its caller's record, from 1.
struct Turn {
    key: Key,
    caller: usize,
    place: usize,
    text: Vec<u8>,
}

/// Writes the states; where the lists don't agree, what is judged.
pub fn states(report: &[u8]) -> Result<Ending, BadLine> {
    Ok(match judge(report)? {
        Ending::Ok(_) => Ending::Ok(text_of(&Lists::read(report)?)),
        other => other,
    })
}

fn text_of(lists: &Lists) -> Vec<u8> {
    let owned: Vec<BTreeSet<u64>> = lists.records.iter().map(|record| owned_epochs(record, lists.histories.len())).collect();
    let mut turns = Vec::new();
    for node in 0..lists.histories.len() {
        push_turns(lists, &owned, node, &mut turns);
    }
    turns.sort_by_key(|turn| turn.key);
    let mut events: Vec<Vec<u8>> = (0..lists.records.len()).flat_map(|caller| behind(lists, caller, 0)).collect();
    for turn in turns {
        events.push(turn.text);
        events.extend(behind(lists, turn.caller, turn.place));
    }
    let mut text = head_text(lists);
    for (event, rest) in (1..).zip(events) {
        text.extend_from_slice(b"{\"event\":");
        push_number(&mut text, event);
        text.extend_from_slice(&rest);
        text.push(b'\n');
    }
    text
}

/// The line before all events.
fn head_text(lists: &Lists) -> Vec<u8> {
    let mut text = Vec::new();
    let mut head = Object::begin(&mut text);
    head.number("event", 0);
    head.number("nodes", lists.histories.len() as u64);
    head.texts("actors", &lists.names);
    head.end();
    text.push(b'\n');
    text
}

/// The epochs that a caller won: more than half of the nodes promised them in one run of proposals.
fn owned_epochs(record: &[Entry], nodes: usize) -> BTreeSet<u64> {
    let mut owned = BTreeSet::new();
    let (mut proposed, mut promises) = (0, 0);
    for entry in record.iter().filter(|entry| entry.kind == Kind::Call) {
        let epoch = match Request::read(entry.asked, &mut Batch::new()) {
            Ok(Request::NewEpoch(epoch)) => Some(epoch),
            _ => None,
        };
        if epoch != Some(proposed) {
            (proposed, promises) = (epoch.unwrap_or(0), 0);
        }
        if epoch.is_some() && entry.told.starts_with(b"new ") {
            promises += 1;
        }
        if epoch.is_some() && 2 * promises > nodes {
            owned.insert(proposed);
        }
    }
    owned
}

/// The lines of a caller's record that follow this place and reached no node, up to the next one
/// that did.
fn behind<'a>(lists: &'a Lists, caller: usize, place: usize) -> impl Iterator<Item = Vec<u8>> + 'a {
    let name = name_of(lists, caller);
    let rest = lists.records[caller][place..].iter().take_while(|entry| !has_reached(entry));
    rest.map(move |entry| {
        let mut text = Vec::new();
        if entry.kind == Kind::Result {
            push_member(&mut text, "caller", name);
            push_member(&mut text, "way", b"result");
            push_member(&mut text, "result", &plain(entry.told));
        } else {
            push_front(&mut text, name, b"dropped", entry.who, entry);
        }
        text.push(b'}');
        text
    })
}

fn has_reached(entry: &Entry) -> bool {
    entry.kind != Kind::Result && entry.told != b"dropped"
}

fn name_of<'a>(lists: &Lists<'a>, caller: usize) -> &'a [u8] {
    lists.names.get(caller).copied().unwrap_or(b"ops")
}

/// A text in which each byte that isn't printable, a quote and a backslash are question marks.
fn plain(text: &[u8]) -> Vec<u8> {
    let is_plain = |byte: u8| (b' '..=b'~').contains(&byte) && !b"\"\\".contains(&byte);
    text.iter().map(|&byte| if is_plain(byte) { byte } else { b'?' }).collect()
}

/// A member that follows others.
fn push_member(text: &mut Vec<u8>, key: &str, value: &[u8]) {
    push_key(text, key);
    crate::json::push_string(text, value);
}

fn push_key(text: &mut Vec<u8>, key: &str) {
    text.extend_from_slice(b",\"");
    text.extend_from_slice(key.as_bytes());
    text.extend_from_slice(b"\":");
}

/// Who called, what became of the call, the node, and what was asked.
fn push_front(text: &mut Vec<u8>, name: &[u8], way: &[u8], node: usize, entry: &Entry) {
    push_member(text, "caller", name);
    push_member(text, "way", way);
    push_key(text, "node");
    push_number(text, node as u64 + 1);
    push_key(text, "ask");
    push_ask(text, entry.asked);
}

/// The lines of a node's history.
fn push_turns(lists: &Lists, owned: &[BTreeSet<u64>], node: usize, turns: &mut Vec<Turn>) {
    let reached = |entry: &&Entry| has_reached(entry) && entry.who == node;
    let mut places: Vec<_> = lists.records.iter().map(|record| (1..).zip(record).filter(|(_, entry)| reached(entry))).collect();
    let mut seat = Seat::new();
    let mut key = None;
    for entry in &lists.histories[node] {
        let Some((place, own)) = places[entry.who].next() else { continue };
        let before = if entry.asked.starts_with(b"purge ") { seat.starts() } else { Vec::new() };
        answer(&mut seat, entry);
        let does_move = moves(entry);
        if does_move && !falls(entry) {
            let promised = seat.numbers().promised;
            key = Some((promised, if owned[entry.who].contains(&promised) { place } else { 0 }));
        } else if does_move && key.is_none() {
            key = Some((0, 0));
        }
        let mut text = Vec::new();
        push_front(&mut text, name_of(lists, entry.who), way(entry, own), node, entry);
        push_key(&mut text, "answer");
        push_answer(&mut text, entry);
        if does_move {
            push_state(&mut text, &seat, entry, &before);
        }
        text.push(b'}');
        turns.push(Turn { key, caller: entry.who, place, text });
    }
}

/// What became of a line of a history, by its caller's own line.
fn way(entry: &Entry, own: &Entry) -> &'static [u8] {
    match entry.kind {
        Kind::Order => b"order",
        Kind::Late => b"late",
        _ if own.told == b"muted" => b"muted",
        _ if entry.told.starts_with(b"stopped ") => b"silent",
        _ => b"heard",
    }
}

/// Whether a line moved its node: a request with an epoch that isn't refused before anything
/// changed, a stop inside a request, or a kill or a restart of a node that wasn't so.
fn moves(entry: &Entry) -> bool {
    if entry.kind == Kind::Order {
        return matches!(read_order(entry.asked), Some(Order::Kill | Order::Restart)) && entry.told == b"done";
    }
    let mut room = Batch::new();
    let Ok(request) = Request::read(entry.asked, &mut room) else { return false };
    let has_epoch = request.head().is_some() || matches!(request, Request::NewEpoch(_));
    let is_at_once = match Reply::read(entry.told, &request) {
        Some(Reply::Refused(refusal)) => refusal.reason as u64 <= 4,
        _ => false,
    };
    entry.told.starts_with(b"stopped ") || (has_epoch && !is_at_once)
}

/// Whether a line that moves its node is a kill, a restart, or a stop after no effect.
fn falls(entry: &Entry) -> bool {
    entry.kind == Kind::Order || entry.told == b"stopped 0"
}

fn push_ask(text: &mut Vec<u8>, asked: &[u8]) {
    let mut ask = Object::begin(text);
    if let Some(order) = read_order(asked) {
        push_order(&mut ask, order, asked);
        return ask.end();
    }
    let mut room = Batch::new();
    let Ok(request) = Request::read(asked, &mut room) else { return ask.end() };
    ask.text("is", asked.split(|&byte| byte == b' ').next().unwrap_or(asked));
    if let Some(head) = request.head() {
        ask.number("epoch", head.epoch);
        ask.number("serial", head.serial);
        ask.number("committed", head.committed);
    }
    let [first, second] = request.numbers();
    match request {
        Request::State | Request::Manifest => {}
        Request::NewEpoch(epoch) => ask.number("epoch", epoch),
        Request::Start(..) | Request::Prepare(..) => ask.number("start", first),
        Request::Journal(_, _, _, batch) => {
            ask.number("start", first);
            ask.number("first", second);
            ask.number("edits", batch.count());
        }
        Request::Finalize(..) => {
            ask.number("start", first);
            ask.number("end", second);
        }
        Request::Fetch(..) => {
            ask.number("start", first);
            ask.number("from", second);
        }
        Request::Accept(_, _, batch) => {
            ask.number("start", first);
            ask.number("edits", batch.count());
        }
        Request::Purge(..) => ask.number("min", first),
        Request::Read(from) => ask.number("from", from),
    }
    ask.end();
}

fn push_order(ask: &mut Object, order: Order, asked: &[u8]) {
    let words: Vec<&[u8]> = asked.split(|&byte| byte == b' ').collect();
    ask.text("is", words[0]);
    match order {
        Order::Kill | Order::Restart => {}
        Order::Stop(calls, keep) => {
            ask.number("calls", calls);
            ask.number("keep", keep);
        }
        Order::Cut(calls, made, _) => {
            ask.number("calls", calls);
            ask.number("made", made);
            ask.text("choice", words[3]);
        }
    }
}

fn push_answer(text: &mut Vec<u8>, entry: &Entry) {
    let mut object = Object::begin(text);
    let mut room = Batch::new();
    let reply = Request::read(entry.asked, &mut room).ok().and_then(|request| Reply::read(entry.told, &request));
    let word = entry.told.split(|&byte| byte == b' ').next().unwrap_or(entry.told);
    object.text("is", word);
    match reply {
        None if word == b"stopped" => object.number("keep", read_number(&entry.told[8..]).unwrap_or(0)),
        None | Some(Reply::Ok) => {}
        Some(Reply::State(promised)) => object.number("promised", promised),
        Some(Reply::NewEpoch(newest)) => push_limit(&mut object, "newest", newest),
        Some(Reply::Prepared { writer, committed, segment }) => {
            object.number("writer", writer);
            object.number("known", committed);
            if let Some(segment) = segment {
                object.value("segment", |text| push_segment(text, &segment));
            }
        }
        Some(Reply::Edits(edits)) => {
            object.number("first", edits.first);
            object.number("edits", edits.count);
        }
        Some(Reply::Segments(segments)) => object.number("count", segments.len() as u64),
        Some(Reply::Refused(refusal)) => {
            object.text("cause", refusal.name().as_bytes());
            push_limit(&mut object, "number", refusal.field);
        }
    }
    object.end();
}

/// A number, or -1 for none.
fn push_limit(object: &mut Object, key: &str, number: Option<u64>) {
    object.value(key, |text| match number {
        Some(number) => push_number(text, number),
        None => text.extend_from_slice(b"-1"),
    });
}

fn push_segment(text: &mut Vec<u8>, segment: &SegmentState) {
    let mut object = Object::begin(text);
    object.number("start", segment.start);
    object.number("end", segment.end);
    object.number("epoch", segment.epoch);
    object.truth("final", segment.is_final);
    object.truth("accepted", segment.is_accepted);
    object.end();
}

/// The node's state after the line, and what became of its segments.
fn push_state(text: &mut Vec<u8>, seat: &Seat, entry: &Entry, before: &[u64]) {
    let numbers = seat.numbers();
    push_key(text, "state");
    let mut object = Object::begin(text);
    object.number("promised", numbers.promised);
    object.number("writer", numbers.writer);
    object.number("committed", numbers.committed);
    object.number("known", numbers.known);
    object.number("serial", numbers.serial);
    push_limit(&mut object, "open", numbers.open);
    object.truth("up", numbers.is_up);
    object.end();
    let mut room = Batch::new();
    let Ok(request) = Request::read(entry.asked, &mut room) else { return };
    match request {
        Request::Start(_, start) | Request::Journal(_, start, ..) | Request::Finalize(_, start, _) | Request::Accept(_, start, _) => {
            if let Some(segment) = seat.segment(start) {
                push_key(text, "segment");
                push_segment(text, &segment);
            }
        }
        Request::Purge(..) => {
            let left = seat.starts();
            push_key(text, "removed");
            let removed = before.iter().filter(|start| !left.contains(start));
            let mut mark = b'[';
            for start in removed {
                text.push(mark);
                push_number(text, *start);
                mark = b',';
            }
            if mark == b'[' {
                text.push(mark);
            }
            text.push(b']');
        }
        _ => {}
    }
}
