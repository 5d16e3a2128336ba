//! What a mirror tells after one pass over the nodes that a play leaves. FORMATS.md, "What a mirror tells".

use crate::cluster::Cluster;
use crate::words::push_next_number;
use std::collections::BTreeMap;

/// A pass over all nodes. Each of them answers, so what one tells is held; of several that tell a start the first is read.
pub fn tell_pass(cluster: &Cluster) -> Vec<u8> {
    let mut text = Vec::new();
    let mut held = BTreeMap::new();
    for node in 0..cluster.count() {
        text.extend_from_slice(b"node");
        push_next_number(&mut text, node as u64 + 1);
        match cluster.final_segments(node) {
            Some(segments) => {
                push_next_number(&mut text, segments.len() as u64);
                for segment in segments {
                    held.entry(segment.start).or_insert(segment.end);
                }
            }
            None => text.extend_from_slice(b" Down"),
        }
        text.push(b'\n');
    }
    push_held(&mut text, &held);
    text
}

/// The segments that are held, each by its first and its last txid, and how many edits they have.
fn push_held(text: &mut Vec<u8>, held: &BTreeMap<u64, u64>) {
    for (&start, &end) in held {
        text.extend_from_slice(b"segment");
        push_next_number(text, start);
        push_next_number(text, end);
        text.push(b'\n');
    }
    text.extend_from_slice(b"edits");
    push_next_number(text, held.iter().map(|(start, end)| end + 1 - start).sum());
    text.extend_from_slice(b"\nend\n");
}
