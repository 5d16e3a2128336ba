//! A report: all histories, then all records. FORMATS.md, "The report".

use crate::caller::node_digits;
use crate::text::{Lines, Texts};
use std::io;

/// How many bytes are written at once.
const WRITTEN: usize = 64 * 1024;

/// The list of one actor: its record, and the text of its position and rows.
pub struct Listed {
    pub name: Vec<u8>,
    pub record: Lines,
    pub rows: Vec<u8>,
}

/// What a play comes to. A line's number of what stands before it is a place in one of the two lists of them.
pub struct Report {
    pub texts: Texts,
    pub callers: Vec<Vec<u8>>,
    pub nodes: Vec<Vec<u8>>,
    pub histories: Vec<Lines>,
    pub listed: Vec<Listed>,
}

impl Report {
    /// How many bytes it has.
    pub fn length(&self) -> usize {
        let heads: usize = self.heads().iter().map(|head| head.len()).sum();
        let histories: usize = self.histories.iter().map(Lines::length).sum();
        let records: usize = self.listed.iter().map(|listed| listed.record.length() + listed.rows.len()).sum();
        heads + histories + records
    }

    /// The first line, the line before each list, and the last line.
    fn heads(&self) -> Vec<Vec<u8>> {
        let count = self.histories.len();
        let mut heads = vec![[b"nodes ", node_digits(count - 1), b"\n"].concat()];
        heads.extend((0..count).map(|node| [b"node ", node_digits(node), b"\n"].concat()));
        heads.extend(self.listed.iter().map(|listed| [b"actor ", &listed.name[..], b"\n"].concat()));
        heads.push(b"end\n".to_vec());
        heads
    }

    /// Writes it, piece by piece.
    pub fn write(&self, mut write: impl FnMut(&[u8]) -> io::Result<()>) -> io::Result<()> {
        let mut text = Vec::with_capacity(2 * WRITTEN);
        let mut heads = self.heads().into_iter();
        text.extend(heads.next().into_iter().flatten());
        for history in &self.histories {
            text.extend(heads.next().into_iter().flatten());
            self.write_lines(history, &self.callers, &mut text, &mut write)?;
        }
        for listed in &self.listed {
            text.extend(heads.next().into_iter().flatten());
            self.write_lines(&listed.record, &self.nodes, &mut text, &mut write)?;
            text.extend_from_slice(&listed.rows);
        }
        text.extend(heads.next().into_iter().flatten());
        write(&text)
    }

    fn write_lines(
        &self,
        lines: &Lines,
        befores: &[Vec<u8>],
        text: &mut Vec<u8>,
        write: &mut impl FnMut(&[u8]) -> io::Result<()>,
    ) -> io::Result<()> {
        for line in lines.iter() {
            line.push_text(text, befores, &self.texts);
            if text.len() > WRITTEN {
                write(text)?;
                text.clear();
            }
        }
        Ok(())
    }
}
