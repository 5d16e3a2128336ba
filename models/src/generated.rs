//! A generated script and its summary. FORMATS.md, "A generated script and its summary".

use crate::edit::{Edit, Record};
use crate::play::Play;
use crate::script::{Line, Order};
use crate::words::push_next_number;

/// The pseudo random sequence of a number.
struct Draws {
    state: u64,
}

impl Draws {
    fn below(&mut self, limit: u64) -> u64 {
        self.state = self.state.wrapping_mul(6364136223846793005).wrapping_add(1442695040888963407);
        (self.state >> 33) % limit
    }

    fn node(&mut self, nodes: usize) -> usize {
        self.below(nodes as u64) as usize
    }
}

/// Plays the script that the number gives, and tells its summary.
pub fn summary(number: u64, edits: u64, nodes: usize) -> Vec<u8> {
    let mut play = Play::new(false, false);
    play.take(Line::Begin(nodes, true));
    for name in [b"a", b"b", b"s"] {
        play.take(Line::Declare(name));
    }
    play.take(Line::Takeover(0));
    let mut draws = Draws { state: number };
    let mut writer = 0;
    for edit in 1..=edits {
        take_before(&mut play, &mut draws, &mut writer, nodes);
        take_edit(&mut play, writer, edit);
    }
    play.take(Line::Tail(2));
    let counts = &play.counts;
    let numbers = [
        ("nodes", nodes as u64),
        ("edits", counts.edits),
        ("acked", counts.acked),
        ("refused", counts.refused),
        ("aborted", counts.aborted),
        ("inactive", counts.inactive),
        ("toolong", counts.too_long),
        ("takeovers", counts.takeovers),
        ("last", play.last_journaled()),
        ("standby", play.position(b"s")),
    ];
    let mut text = Vec::new();
    for (word, number) in numbers {
        text.extend_from_slice(word.as_bytes());
        push_next_number(&mut text, number);
        text.push(b'\n');
    }
    text
}

/// The lines that come before an edit. FORMATS.md, "A generated script and its summary", the table of d.
fn take_before(play: &mut Play, draws: &mut Draws, writer: &mut usize, nodes: usize) {
    match draws.below(100) {
        0 => {
            *writer = 1 - *writer;
            play.take(Line::Takeover(*writer));
        }
        1 | 2 => play.take(Line::Roll(*writer)),
        3..=6 => play.take(Line::Drop(*writer, draws.node(nodes), 1)),
        7 => {
            let node = draws.node(nodes);
            play.take(Line::Operate(node, Order::Kill));
            play.take(Line::Operate(node, Order::Restart));
        }
        8 => play.take(Line::Takeover(*writer)),
        _ => {}
    }
}

/// `log w mkdir ..` where i - 1 is divisible by 100, else `log w add ..`.
fn take_edit(play: &mut Play, writer: usize, number: u64) {
    let mut path = format!("/d{}", (number - 1) / 100);
    let (user, group) = (&b"gen"[..], &b"gen"[..]);
    let edit = if (number - 1) % 100 == 0 {
        Edit::Mkdir { path: path.as_bytes(), time: number, permission: 0o755, user, group }
    } else {
        path.push_str(&format!("/f{number}"));
        let (path, permission) = (path.as_bytes(), 0o644);
        Edit::Add { path, replication: 3, mtime: number, atime: number, block_size: 1, permission, user, group }
    };
    play.take(Line::Submit(writer, vec![Record { call: None, edit }]));
}
