//! The lists of a play: each text is kept once, and a line is what stands before it and where its texts are.

/// How many bytes of texts, and how many lines, are allocated at once. What is there is never moved.
const PIECE: usize = 64 * 1024;
const LINES: usize = 1024;

/// The bytes of a text's length, which stands before it.
const LENGTH: usize = 4;

/// Where a text stands: the number of its piece, and the byte in it. A report's texts have fewer than 65,536 pieces, since they have no
/// more bytes than it, and any two pieces in a row have more than 64 kB.
#[derive(Clone, Copy, PartialEq, Eq)]
pub struct Span {
    piece: u16,
    byte: u16,
}

/// The place of no text.
pub const NOWHERE: Span = Span { piece: u16::MAX, byte: u16::MAX };

/// Texts.
#[derive(Default)]
pub struct Texts {
    pieces: Vec<Vec<u8>>,
}

impl Texts {
    /// Keeps a text.
    pub fn push(&mut self, text: &[u8]) -> Span {
        let wanted = LENGTH + text.len();
        let has_room = self.pieces.last().is_some_and(|piece| piece.len() + wanted <= PIECE);
        if !has_room {
            self.pieces.push(Vec::with_capacity(PIECE.max(wanted)));
        }
        let number = self.pieces.len() - 1;
        let piece = &mut self.pieces[number];
        let span = Span { piece: number as u16, byte: piece.len() as u16 };
        piece.extend_from_slice(&(text.len() as u32).to_le_bytes());
        piece.extend_from_slice(text);
        span
    }

    /// The text there; none for the place of none.
    pub fn get(&self, span: Span) -> &[u8] {
        let piece = self.pieces.get(usize::from(span.piece)).map_or(&[][..], |piece| &piece[usize::from(span.byte)..]);
        match piece.split_first_chunk::<LENGTH>() {
            Some((length, rest)) => &rest[..u32::from_le_bytes(*length) as usize],
            None => &[],
        }
    }
}

/// A line: the number of what stands before it, what was asked, and what was told. A line that is no call has nothing told.
#[derive(Clone, Copy)]
pub struct Line {
    pub before: u16,
    pub asked: Span,
    pub told: Span,
}

/// What stands between what was asked and what was told.
const ARROW: &[u8] = b" -> ";

impl Line {
    /// Appends the line to a text.
    pub fn push_text(&self, text: &mut Vec<u8>, befores: &[Vec<u8>], texts: &Texts) {
        text.extend_from_slice(&befores[usize::from(self.before)]);
        text.extend_from_slice(texts.get(self.asked));
        if self.told != NOWHERE {
            text.extend_from_slice(ARROW);
            text.extend_from_slice(texts.get(self.told));
        }
        text.push(b'\n');
    }

    /// How many bytes it has, without what stands before it.
    fn length(&self, texts: &Texts) -> usize {
        let told = if self.told == NOWHERE { 0 } else { ARROW.len() + texts.get(self.told).len() };
        texts.get(self.asked).len() + told + 1
    }
}

/// A list of lines.
#[derive(Default)]
pub struct Lines {
    pieces: Vec<Vec<Line>>,
    length: usize,
}

impl Lines {
    /// Appends a line, before which so many bytes stand; its place.
    pub fn push(&mut self, line: Line, before: usize, texts: &Texts) -> u32 {
        if self.pieces.last().is_none_or(|piece| piece.len() == LINES) {
            self.pieces.push(Vec::with_capacity(LINES));
        }
        self.length += before + line.length(texts);
        let number = self.pieces.len() - 1;
        self.pieces[number].push(line);
        (number * LINES + self.pieces[number].len() - 1) as u32
    }

    /// The line at a place.
    pub fn get(&self, place: u32) -> Line {
        self.pieces[place as usize / LINES][place as usize % LINES]
    }

    /// All lines in order.
    pub fn iter(&self) -> impl Iterator<Item = &Line> {
        self.pieces.iter().flatten()
    }

    /// How many bytes its text has.
    pub fn length(&self) -> usize {
        self.length
    }
}
