//! What a fresh standby comes to over the nodes that a play leaves. FORMATS.md, "What a standby that boots tells".

use crate::caller::push_causes;
use crate::cluster::Cluster;
use crate::standby::{Standby, Tailed};
use crate::words::push_next_number;

/// A standby that begins with an image, where there is one, reads the log, and tells where it stands.
pub fn tell_boot(cluster: &mut Cluster, donor: Option<Standby>) -> Vec<u8> {
    let mut standby = donor.unwrap_or_else(Standby::new);
    let image = standby.reload_newest();
    let nodes = cluster.count();
    let majority = cluster.majority();
    let tailed = standby.read_log(nodes, majority, None, |node, from| cluster.read(node, from));
    let mut text = b"boot".to_vec();
    match tailed {
        Tailed::CaughtUp => {
            match image {
                Some(txid) => push_next_number(&mut text, txid),
                None => text.extend_from_slice(b" none"),
            }
            push_next_number(&mut text, standby.position);
            text.push(b'\n');
            text.extend_from_slice(&standby.row_lines());
            text.extend_from_slice(b"end\n");
            return text;
        }
        Tailed::Purged(first) => {
            text.extend_from_slice(b" unreachable");
            push_next_number(&mut text, standby.position);
            push_next_number(&mut text, first);
        }
        Tailed::Behind(causes) => {
            text.extend_from_slice(b" behind");
            push_next_number(&mut text, standby.position);
            push_causes(&mut text, &causes);
        }
        Tailed::BadEntry => unreachable!("what a play logs replays"),
    }
    text.extend_from_slice(b"\nend\n");
    text
}
