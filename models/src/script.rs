//! The lines of a script, read and judged one after the other. FORMATS.md, "Scripts".

use crate::batch::Batch;
use crate::disk::Choice;
use crate::edit::Record;
use crate::request::Rule;
use crate::words::{first_word, has_stray_space, read_number, read_small_number, split_words};

/// Limits of a script. FORMATS.md, "Limits".
pub const MOST_ACTORS: usize = 8;
const LONGEST_LINE: usize = 16384;
pub const MOST_NODES: u64 = 15;

/// The line of a script that breaks a rule first.
pub struct BadLine {
    pub line: u64,
    pub rule: Rule,
}

/// The first line that pipes don't carry: one that begins with `names` or `late`. The last line counts with its line feed alone.
/// FORMATS.md, "The program", `piped`.
pub fn line_of_no_pipe(script: &[u8]) -> Option<BadLine> {
    let lines = script.split_inclusive(|&byte| byte == b'\n').filter_map(|line| line.strip_suffix(b"\n"));
    (1..).zip(lines).find_map(|(line, text)| match first_word(text) {
        b"names" => Some(BadLine { line, rule: 1 }),
        b"late" => Some(BadLine { line, rule: 2 }),
        _ => None,
    })
}

/// What the operator does with a node.
#[derive(Clone, Copy)]
pub enum Order {
    Kill,
    Restart,
    Stop(u64, u64),
    Cut(u64, u64, Choice),
}

/// A line that says something. Actors and nodes are counted from 0.
pub enum Line<'a> {
    /// The first line: how many nodes, and whether the actors have namespaces.
    Begin(usize, bool),
    Declare(&'a [u8]),
    Takeover(usize),
    Log(usize, Batch),
    Submit(usize, Vec<Record<'a>>),
    Roll(usize),
    Close(usize),
    Purge(usize, u64),
    Trim(usize, u64),
    Tail(usize),
    Checkpoint(usize),
    Reload(usize),
    Drop(usize, usize, u64),
    Mute(usize, usize, u64),
    Late(usize, usize, u64),
    Operate(usize, Order),
}

/// A script that is being read.
pub struct Script<'a> {
    rest: &'a [u8],
    line: u64,
    nodes: usize,
    with_names: bool,
    /// Whether `raw N` breaks rule 1.
    names_alone: bool,
    actors: Vec<&'a [u8]>,
}

impl<'a> Script<'a> {
    /// A script of these bytes, of which nothing is read yet.
    pub fn new(bytes: &'a [u8]) -> Script<'a> {
        Script { rest: bytes, line: 0, nodes: 0, with_names: false, names_alone: false, actors: Vec::new() }
    }

    /// A script of these bytes that has to have names.
    pub fn with_names(bytes: &'a [u8]) -> Script<'a> {
        Script { names_alone: true, ..Script::new(bytes) }
    }

    /// A line of a script with names, behind the one that declares this actor.
    pub fn of_line(line: &'a [u8], actor: &'a [u8], nodes: usize) -> Script<'a> {
        Script { nodes, with_names: true, actors: vec![actor], ..Script::new(line) }
    }

    /// The next line that says something.
    fn read_next(&mut self) -> Result<Option<Line<'a>>, Rule> {
        while !self.rest.is_empty() {
            self.line += 1;
            let end = self.rest.iter().position(|&byte| byte == b'\n');
            let line = &self.rest[..end.unwrap_or(self.rest.len())];
            self.rest = &self.rest[end.map_or(self.rest.len(), |end| end + 1)..];
            let is_plain = line.iter().all(|byte| (0x20..=0x7e).contains(byte));
            if end.is_none() || line.len() > LONGEST_LINE || !is_plain {
                return Err(10);
            }
            if line.is_empty() || line[0] == b'#' {
                continue;
            }
            return if self.nodes == 0 { self.read_first(line) } else { self.read_line(line) }.map(Some);
        }
        if self.nodes == 0 {
            self.line = 1;
            return Err(1);
        }
        Ok(None)
    }

    /// Rule 1: the first line that says something is `raw N` or `names N`.
    fn read_first(&mut self, line: &[u8]) -> Result<Line<'a>, Rule> {
        let (with_names, number) = match (line.strip_prefix(b"raw "), line.strip_prefix(b"names ")) {
            (Some(number), _) if !self.names_alone => (false, number),
            (_, Some(number)) => (true, number),
            _ => return Err(1),
        };
        let nodes = read_number(number).filter(|nodes| (1..=MOST_NODES).contains(nodes)).ok_or(1_u64)?;
        (self.nodes, self.with_names) = (nodes as usize, with_names);
        Ok(Line::Begin(self.nodes, with_names))
    }

    /// Rules 2 and 3, and then those of the line's kind.
    fn read_line(&mut self, line: &'a [u8]) -> Result<Line<'a>, Rule> {
        let name = first_word(line);
        let wanted = word_count(name, self.with_names).ok_or(2_u64)?;
        let mut words = [&b""[..]; 5];
        let mut count = 0;
        for word in split_words(line) {
            if let Some(place) = words.get_mut(count) {
                *place = word;
            }
            count += 1;
        }
        let fits = if name == b"log" { count >= wanted } else { count == wanted };
        if !fits || has_stray_space(line) {
            return Err(3);
        }
        match name {
            b"writer" | b"name" => self.declare(words[1]),
            b"kill" | b"restart" | b"stop" | b"cut" => self.operate(words),
            b"log" => self.read_log(words[1], &line[b"log ".len() + words[1].len() + 1..]),
            _ => self.act(words),
        }
    }

    /// Rules 4, 11 and 6.
    fn declare(&mut self, name: &'a [u8]) -> Result<Line<'a>, Rule> {
        if !is_name(name) {
            return Err(4);
        }
        if self.actors.len() == MOST_ACTORS {
            return Err(11);
        }
        if self.actors.contains(&name) {
            return Err(6);
        }
        self.actors.push(name);
        Ok(Line::Declare(name))
    }

    /// Rule 5.
    fn actor(&self, name: &[u8]) -> Result<usize, Rule> {
        self.actors.iter().position(|actor| *actor == name).ok_or(5)
    }

    /// Rule 7: a node from 1 to N.
    fn node(&self, word: &[u8]) -> Result<usize, Rule> {
        let node = read_number(word).filter(|node| (1..=self.nodes as u64).contains(node)).ok_or(7_u64)?;
        Ok(node as usize - 1)
    }

    /// A line of an actor, but `log`.
    fn act(&self, words: [&[u8]; 5]) -> Result<Line<'a>, Rule> {
        let actor = self.actor(words[1])?;
        Ok(match words[0] {
            b"takeover" => Line::Takeover(actor),
            b"roll" => Line::Roll(actor),
            b"close" => Line::Close(actor),
            b"purge" => Line::Purge(actor, number(words[2], 0)?),
            b"trim" => Line::Trim(actor, number(words[2], 0)?),
            b"tail" => Line::Tail(actor),
            b"checkpoint" => Line::Checkpoint(actor),
            b"reload" => Line::Reload(actor),
            b"drop" => Line::Drop(actor, self.node(words[2])?, number(words[3], 1)?),
            b"mute" => Line::Mute(actor, self.node(words[2])?, number(words[3], 1)?),
            _ => Line::Late(actor, self.node(words[2])?, number(words[3], 1)?),
        })
    }

    /// A line of the operator.
    fn operate(&self, words: [&[u8]; 5]) -> Result<Line<'a>, Rule> {
        let node = self.node(words[1])?;
        let order = match words[0] {
            b"kill" => Order::Kill,
            b"restart" => Order::Restart,
            b"stop" => Order::Stop(number(words[2], 1)?, number(words[3], 0)?),
            _ => Order::Cut(number(words[2], 1)?, number(words[3], 0)?, choice(words[4])?),
        };
        Ok(Line::Operate(node, order))
    }

    /// `log` with bodies, or with edits between `;`. Rules 5, 8 and 9.
    fn read_log(&self, actor: &[u8], text: &'a [u8]) -> Result<Line<'a>, Rule> {
        let actor = self.actor(actor)?;
        if !self.with_names {
            let mut batch = Batch::new();
            let are_good = split_words(text).all(|word| batch.push_word(word));
            return if are_good { Ok(Line::Log(actor, batch)) } else { Err(8) };
        }
        let mut edits = Vec::new();
        let mut rest = Some(text);
        while let Some(text) = rest {
            let (edit, next) = cut_edit(text);
            edits.push(Record::parse(edit).ok_or(9_u64)?);
            rest = next;
        }
        Ok(Line::Submit(actor, edits))
    }
}

impl<'a> Iterator for Script<'a> {
    type Item = Result<Line<'a>, BadLine>;

    fn next(&mut self) -> Option<Self::Item> {
        self.read_next().map_err(|rule| BadLine { line: self.line, rule }).transpose()
    }
}

/// How many words a line has, of such a script; `log` may have more. FORMATS.md, "Scripts", the table of lines.
fn word_count(name: &[u8], with_names: bool) -> Option<usize> {
    Some(match name {
        b"writer" if !with_names => 2,
        b"purge" if !with_names => 3,
        b"name" | b"tail" | b"checkpoint" | b"reload" if with_names => 2,
        b"trim" if with_names => 3,
        b"takeover" | b"roll" | b"close" | b"kill" | b"restart" => 2,
        b"log" => 3,
        b"drop" | b"mute" | b"late" | b"stop" => 4,
        b"cut" => 5,
        _ => return None,
    })
}

/// The text of the first edit, and what stands behind the word `;` after it.
fn cut_edit(text: &[u8]) -> (&[u8], Option<&[u8]>) {
    if let Some(rest) = text.strip_prefix(b"; ") {
        return (b"", Some(rest));
    }
    if let Some(place) = text.windows(3).position(|bytes| bytes == b" ; ") {
        return (&text[..place], Some(&text[place + 3..]));
    }
    match text.strip_suffix(b" ;") {
        Some(edit) => (edit, Some(b"")),
        None => (text, None),
    }
}

/// NAME: a letter a to z and up to 15 more of a to z and 0 to 9, and not `ops`.
pub fn is_name(name: &[u8]) -> bool {
    name.len() <= 16
        && name.first().is_some_and(u8::is_ascii_lowercase)
        && name.iter().all(|byte| byte.is_ascii_lowercase() || byte.is_ascii_digit())
        && name != b"ops"
}

fn number(word: &[u8], least: u64) -> Result<u64, Rule> {
    read_small_number(word).filter(|&number| number >= least).ok_or(7)
}

pub fn choice(word: &[u8]) -> Result<Choice, Rule> {
    match word {
        b"old" => Ok(Choice::Old),
        b"new" => Ok(Choice::New),
        b"a5" => Ok(Choice::A5),
        _ => Err(7),
    }
}
