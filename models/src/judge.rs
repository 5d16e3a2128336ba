//! Whether the lists of a report agree. FORMATS.md, "Reading a report"; MODEL.md, "What is
//! claimed".

use crate::batch::Batch;
use crate::chores;
use crate::cluster::Seat;
use crate::ends::Ending;
use crate::lists::{read_order, Entry, Kind, Lists};
use crate::request::Request;
use crate::script::BadLine;
use std::collections::BTreeSet;

/// A list of a report, by its index from 0.
enum ListOf {
    Node(usize),
    Caller(usize),
}

/// The list that breaks a part first, and the line with which it does.
type Place = (ListOf, u64);

/// The parts, in the order in which they are judged. Reading tells sizes, nodes and callers that
/// don't fit.
const PARTS: [(&str, fn(&Lists) -> Option<Place>); 5] =
    [("Operator", strange_line), ("Histories", foreign_line), ("Calls", unlike_line), ("Marks", uncalled_copy), ("Rounds", unmade_line)];

/// Judges a report.
pub fn judge(report: &[u8]) -> Result<Ending, BadLine> {
    let lists = Lists::read(report)?;
    let broken = PARTS.iter().find_map(|(part, place_in)| Some((part, place_in(&lists)?)));
    let Some((part, (list, line))) = broken else { return Ok(Ending::Ok(b"agrees\n".to_vec())) };
    let (kind, name) = match list {
        ListOf::Node(node) => ("node", (node + 1).to_string()),
        ListOf::Caller(caller) => ("actor", lists.names.get(caller).map_or("ops".into(), |name| String::from_utf8_lossy(name).into())),
    };
    Ok(Ending::Unsound(format!("disagrees {part} {kind} {name} {line}\n").into_bytes()))
}

/// The operator's first line that is no order.
fn strange_line(lists: &Lists) -> Option<Place> {
    let operator = lists.names.len();
    let line = lists.records[operator].iter().find(|entry| entry.kind != Kind::Order)?.line;
    Some((ListOf::Caller(operator), line))
}

/// The first line that no node answers so.
fn foreign_line(lists: &Lists) -> Option<Place> {
    (0..).zip(&lists.histories).find_map(|(node, history)| Some((ListOf::Node(node), foreign_in(history)?)))
}

fn foreign_in(history: &[Entry]) -> Option<u64> {
    let mut seat = Seat::new();
    history.iter().find(|entry| answer(&mut seat, entry) != entry.told).map(|entry| entry.line)
}

/// What a node answers, as text.
pub fn answer(seat: &mut Seat, entry: &Entry) -> Vec<u8> {
    if let Some(order) = read_order(entry.asked) {
        return if seat.operate(order) { b"done".to_vec() } else { b"idle".to_vec() };
    }
    let mut room = Batch::new();
    let Ok(request) = Request::read(entry.asked, &mut room) else { return Vec::new() };
    let mut text = Vec::new();
    match seat.answer(&request) {
        Ok(reply) => reply.push_text(&mut text),
        Err(effects) => text.extend_from_slice(format!("stopped {effects}").as_bytes()),
    }
    text
}

/// The first line of a node that its caller doesn't list so next, or of a caller that the node
/// lacks.
fn unlike_line(lists: &Lists) -> Option<Place> {
    (0..).zip(&lists.histories).find_map(|(node, history)| unlike_at(lists, node, history))
}

fn unlike_at(lists: &Lists, node: usize, history: &[Entry]) -> Option<Place> {
    let reached = |entry: &&Entry| entry.kind != Kind::Result && entry.told != b"dropped" && entry.who == node;
    let mut left: Vec<_> = lists.records.iter().map(|record| record.iter().filter(reached)).collect();
    for entry in history {
        if !left[entry.who].next().is_some_and(|own| is_same(own, entry)) {
            return Some((ListOf::Node(node), entry.line));
        }
    }
    (0..).zip(&mut left).find_map(|(caller, rest)| Some((ListOf::Caller(caller), rest.next()?.line)))
}

/// Whether a line of a caller and one of a node are of one event.
fn is_same(own: &Entry, listed: &Entry) -> bool {
    let is_heard = match (own.kind, own.told) {
        (Kind::Late, _) | (Kind::Call, b"muted") => true,
        (Kind::Call, b"silent") => listed.told.starts_with(b"stopped "),
        _ => own.told == listed.told,
    };
    own.kind == listed.kind && own.asked == listed.asked && is_heard
}

/// The first late copy of no call before it.
fn uncalled_copy(lists: &Lists) -> Option<Place> {
    (0..).zip(&lists.records).find_map(|(caller, record)| Some((ListOf::Caller(caller), uncalled_in(record)?)))
}

fn uncalled_in(record: &[Entry]) -> Option<u64> {
    let mut asked = BTreeSet::new();
    for entry in record {
        match entry.kind {
            Kind::Late if !asked.contains(&(entry.who, entry.asked)) => return Some(entry.line),
            Kind::Call => {
                asked.insert((entry.who, entry.asked));
            }
            _ => {}
        }
    }
    None
}

/// The first line of an actor that no chore makes.
fn unmade_line(lists: &Lists) -> Option<Place> {
    let actors = &lists.records[..lists.names.len()];
    (0..).zip(actors).find_map(|(actor, record)| Some((ListOf::Caller(actor), chores::unmade_line(record, lists.histories.len())?)))
}
