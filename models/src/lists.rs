//! A report read back: its lists, or the first line that breaks a rule. FORMATS.md, "Reading a
//! report".

use crate::batch::Batch;
use crate::reply::Reply;
use crate::request::{Request, Rule};
use crate::rows::respell;
use crate::script::{choice, is_name, BadLine, Order, MOST_ACTORS, MOST_NODES};
use crate::words::{read_number, split_words};

/// What kind of line it is, by what was asked.
#[derive(Clone, Copy, PartialEq, Eq)]
pub enum Kind {
    Call,
    Late,
    Order,
    Result,
}

/// A line of a history or of a record.
#[derive(Clone, Copy)]
pub struct Entry<'a> {
    /// Its number in the report, from 1.
    pub line: u64,
    /// In a history the caller, in a record the node, from 0.
    pub who: usize,
    pub kind: Kind,
    /// The text of a request, of a copy's too, or of an order.
    pub asked: &'a [u8],
    /// What stands behind the arrow.
    pub told: &'a [u8],
}

/// The lists of a report. The operator's record stands behind those of the actors, and so the
/// operator does behind them as a caller.
pub struct Lists<'a> {
    pub names: Vec<&'a [u8]>,
    pub histories: Vec<Vec<Entry<'a>>>,
    pub records: Vec<Vec<Entry<'a>>>,
}

/// A report that is being read, line by line. Only what an LF ends is a line.
struct Reader<'a> {
    lines: Vec<&'a [u8]>,
    behind: &'a [u8],
    at: usize,
    names: Vec<&'a [u8]>,
    /// The first line that is spelled otherwise than what it tells.
    odd: Option<u64>,
}

impl<'a> Lists<'a> {
    /// Reads a report.
    pub fn read(report: &'a [u8]) -> Result<Lists<'a>, BadLine> {
        let mut lines: Vec<&[u8]> = report.split(|&byte| byte == b'\n').collect();
        let behind = lines.pop().unwrap_or(&[]);
        let mut reader = Reader { lines, behind, at: 0, names: Vec::new(), odd: None };
        let lists = reader.read();
        let bad = |rule| BadLine { line: reader.at as u64 + 1, rule };
        match (lists, reader.odd) {
            (Err(rule), _) => Err(bad(rule)),
            (Ok(_), Some(line)) => Err(BadLine { line, rule: 9 }),
            (Ok(lists), None) => Ok(lists),
        }
    }
}

impl<'a> Reader<'a> {
    /// The whole report; else the rule that the next line breaks.
    fn read(&mut self) -> Result<Lists<'a>, Rule> {
        let nodes = self.next().and_then(|line| line.strip_prefix(b"nodes ")).and_then(read_number);
        let nodes = nodes.filter(|nodes| (1..=MOST_NODES).contains(nodes)).ok_or(1_u64)? as usize;
        self.at += 1;
        self.find_names();
        let histories = (1..=nodes).map(|node| self.read_history(node)).collect::<Result<Vec<_>, Rule>>()?;
        let names = self.names.clone();
        let mut records = names.iter().map(|name| self.read_actor(name, nodes)).collect::<Result<Vec<_>, Rule>>()?;
        records.push(self.read_operator(nodes)?);
        self.take_line(b"end", 8)?;
        if self.next().is_some() || !self.behind.is_empty() {
            return Err(8);
        }
        Ok(Lists { names, histories, records })
    }

    /// The next line.
    fn next(&self) -> Option<&'a [u8]> {
        self.lines.get(self.at).copied()
    }

    /// The number of the next line, from 1.
    fn number(&self) -> u64 {
        self.at as u64 + 1
    }

    /// Takes the next line, which has to be this one.
    fn take_line(&mut self, line: &[u8], rule: Rule) -> Result<(), Rule> {
        if self.next() != Some(line) {
            return Err(rule);
        }
        self.at += 1;
        Ok(())
    }

    /// The names that all lines `actor NAME` tell, wherever they stand.
    fn find_names(&mut self) {
        for line in &self.lines[1..] {
            match line.strip_prefix(b"actor ") {
                Some(name) if is_name(name) && !self.names.contains(&name) && self.names.len() < MOST_ACTORS => self.names.push(name),
                _ => {}
            }
        }
    }

    /// Rules 2 and 3: `node K`, and then all lines with an arrow's point.
    fn read_history(&mut self, node: usize) -> Result<Vec<Entry<'a>>, Rule> {
        self.take_line(format!("node {node}").as_bytes(), 2)?;
        let mut history = Vec::new();
        while let Some(line) = self.next().filter(|line| line.contains(&b'>')) {
            history.push(self.read_listed(line).ok_or(3_u64)?);
            self.at += 1;
        }
        Ok(history)
    }

    /// A line of a history: a caller, a request or an order, an arrow and an answer to it.
    fn read_listed(&self, line: &'a [u8]) -> Option<Entry<'a>> {
        let (name, rest) = cut(line, b" ")?;
        let operator = (name == b"ops").then_some(self.names.len());
        let who = self.names.iter().position(|own| *own == name).or(operator)?;
        let (kind, asked, told) = read_asked(rest)?;
        let fits = match told.strip_prefix(b"stopped ") {
            _ if kind == Kind::Order => is_order_told(told),
            Some(number) => read_number(number).is_some(),
            None => read_told(asked, told).is_some(),
        };
        fits.then_some(Entry { line: self.number(), who, kind, asked, told })
    }

    /// Rules 4 to 7: `actor NAME`, its record, and the position and rows, where they are there.
    fn read_actor(&mut self, name: &[u8], nodes: usize) -> Result<Vec<Entry<'a>>, Rule> {
        self.take_line(&[b"actor ", name].concat(), 4)?;
        let record = self.read_record(nodes)?;
        let Some(position) = self.next().and_then(|line| line.strip_prefix(b"position ")) else { return Ok(record) };
        read_number(position).ok_or(6_u64)?;
        self.at += 1;
        while let Some(row) = self.next().and_then(|line| line.strip_prefix(b". ")) {
            if respell(row).ok_or(7_u64)? != row {
                self.odd = self.odd.or(Some(self.number()));
            }
            self.at += 1;
        }
        Ok(record)
    }

    /// The operator's record, where it is there. One without a line isn't spelled.
    fn read_operator(&mut self, nodes: usize) -> Result<Vec<Entry<'a>>, Rule> {
        if !self.next().is_some_and(|line| line.starts_with(b"actor ")) {
            return Ok(Vec::new());
        }
        let line = self.number();
        self.take_line(b"actor ops", 4)?;
        let record = self.read_record(nodes)?;
        if record.is_empty() {
            self.odd = self.odd.or(Some(line));
        }
        Ok(record)
    }

    /// Rule 5: all lines that begin with no letter.
    fn read_record(&mut self, nodes: usize) -> Result<Vec<Entry<'a>>, Rule> {
        let mut record = Vec::new();
        while let Some(line) = self.next().filter(|line| !line.first().is_some_and(u8::is_ascii_lowercase)) {
            record.push(self.read_recorded(line, nodes).ok_or(5_u64)?);
            self.at += 1;
        }
        Ok(record)
    }

    /// A line of a record: a result, or a node, a request or an order, an arrow and what came of
    /// it.
    fn read_recorded(&self, line: &'a [u8], nodes: usize) -> Option<Entry<'a>> {
        if let Some(told) = line.strip_prefix(b"= ") {
            let result = Entry { line: self.number(), who: 0, kind: Kind::Result, asked: b"", told };
            return (!told.is_empty()).then_some(result);
        }
        let (word, rest) = cut(line, b" ")?;
        let node = read_number(word).filter(|node| (1..=nodes as u64).contains(node))?;
        let (kind, asked, told) = read_asked(rest)?;
        let fits = match kind {
            Kind::Order => is_order_told(told),
            Kind::Late => told == b"gone",
            _ => matches!(told, b"dropped" | b"muted" | b"silent") || read_told(asked, told).is_some(),
        };
        fits.then_some(Entry { line: self.number(), who: node as usize - 1, kind, asked, told })
    }
}

/// What stands before and behind the first place of a text in a line.
fn cut<'a>(line: &'a [u8], text: &[u8]) -> Option<(&'a [u8], &'a [u8])> {
    let place = line.windows(text.len()).position(|window| window == text)?;
    Some((&line[..place], &line[place + text.len()..]))
}

/// What was asked, by its kind and its text, and what stands behind the arrow.
fn read_asked(text: &[u8]) -> Option<(Kind, &[u8], &[u8])> {
    let (asked, told) = cut(text, b" -> ")?;
    if read_order(asked).is_some() {
        return Some((Kind::Order, asked, told));
    }
    let (kind, request) = match asked.strip_prefix(b"late ") {
        Some(request) => (Kind::Late, request),
        None => (Kind::Call, asked),
    };
    Request::read(request, &mut Batch::new()).ok()?;
    Some((kind, request, told))
}

/// What the operator wanted; the numbers are any.
pub fn read_order(text: &[u8]) -> Option<Order> {
    let words: Vec<&[u8]> = split_words(text).collect();
    Some(match words[..] {
        [b"kill"] => Order::Kill,
        [b"restart"] => Order::Restart,
        [b"stop", calls, effects] => Order::Stop(read_number(calls)?, read_number(effects)?),
        [b"cut", calls, inside, word] => Order::Cut(read_number(calls)?, read_number(inside)?, choice(word).ok()?),
        _ => return None,
    })
}

fn is_order_told(told: &[u8]) -> bool {
    matches!(told, b"done" | b"idle")
}

/// A reply that answers the request of this text.
pub fn read_told(asked: &[u8], told: &[u8]) -> Option<Reply> {
    let mut room = Batch::new();
    let request = Request::read(asked, &mut room).ok()?;
    Reply::read(told, &request)
}
