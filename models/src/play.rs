//! A play: the lines of a script taken in order, and its report. FORMATS.md, "Scripts" and "The report".

use crate::batch::Batch;
use crate::boot;
use crate::caller::{all_before, before_call, node_digits, push_causes, Caller};
use crate::cluster::Cluster;
use crate::edit::Record;
use crate::mirror;
use crate::pipes::FarNode;
use crate::report::{Listed, Report};
use crate::script::{BadLine, Line, Script};
use crate::space::Refused;
use crate::standby::{Standby, Tailed};
use crate::text::{self, Lines};
use crate::words::push_next_number;
use crate::writer::{Failure, Net, Writer};

/// The most bytes of a report. FORMATS.md, "The program", status 4.
pub const LONGEST_REPORT: usize = 268_435_456;

/// The actor of `lead` in the script that its lines make. FORMATS.md, "The program".
const LEAD: &[u8] = b"a";

/// An actor: its writer, and what it has beside it where the script has names.
struct Actor {
    caller: Caller,
    writer: Writer,
    standby: Option<Standby>,
}

/// How many results of each kind a play has. FORMATS.md, "A generated script and its summary".
#[derive(Default)]
pub struct Counts {
    pub edits: u64,
    pub acked: u64,
    pub refused: u64,
    pub aborted: u64,
    pub inactive: u64,
    pub too_long: u64,
    pub takeovers: u64,
}

/// What becomes of an edit that a name node submits. GLOSSARY.md, "due".
enum Due {
    Logged,
    Refused(crate::tree::Cause),
    Repeated(u64),
    TooLong(u64),
}

/// A play.
pub struct Play {
    cluster: Cluster,
    actors: Vec<Actor>,
    operator: Option<Lines>,
    with_names: bool,
    keeps_places: bool,
    pub counts: Counts,
}

/// Whether some line may send a late copy, which is found by its place.
fn has_copies(bytes: &[u8]) -> bool {
    bytes.windows(6).any(|window| window == b"\nlate ")
}

/// Plays a whole script, and tells what a mirror of its nodes holds then. Lists are kept where copies want them.
pub fn mirror_script(bytes: &[u8]) -> Result<Vec<u8>, BadLine> {
    let keeps = has_copies(bytes);
    let mut play = Play::new(keeps, keeps);
    for line in Script::new(bytes) {
        play.take(line?);
    }
    Ok(mirror::tell_pass(&play.cluster))
}

/// Plays a whole script with names, and tells what a fresh standby comes to over its nodes, from the images of the first actor. Lists
/// are kept where copies want them. A text that is longer than a report may be is none.
pub fn boot_script(bytes: &[u8]) -> Result<Option<Vec<u8>>, BadLine> {
    let keeps = has_copies(bytes);
    let mut play = Play::new(keeps, keeps);
    for line in Script::with_names(bytes) {
        play.take(line?);
    }
    let donor = play.actors.into_iter().next().and_then(|actor| actor.standby);
    let text = boot::tell_boot(&mut play.cluster, donor);
    Ok((text.len() <= LONGEST_REPORT).then_some(text))
}

/// Plays a whole script. A script that breaks a rule is told as that; a report that is too long is none.
pub fn play_script(bytes: &[u8]) -> Result<Option<Report>, BadLine> {
    let mut play = Play::new(true, has_copies(bytes));
    for line in Script::new(bytes) {
        let line = line?;
        if play.length() <= LONGEST_REPORT {
            play.take(line);
        }
    }
    if play.length() > LONGEST_REPORT {
        return Ok(None);
    }
    let report = play.into_report();
    Ok((report.length() <= LONGEST_REPORT).then_some(report))
}

impl Play {
    /// A play of which no line was taken yet.
    pub fn new(keeps: bool, keeps_places: bool) -> Play {
        let cluster = Cluster::new(0, keeps);
        Play { cluster, actors: Vec::new(), operator: None, with_names: false, keeps_places, counts: Counts::default() }
    }

    /// The play of a name node alone, over nodes at the far ends of pipes.
    pub fn over(far: Vec<FarNode>, standby: Standby) -> Play {
        let mut cluster = Cluster::over(far);
        let caller = Caller::new(LEAD, &mut cluster, false);
        let actor = Actor { caller, writer: Writer::default(), standby: Some(standby) };
        Play { cluster, actors: vec![actor], with_names: true, ..Play::new(false, false) }
    }

    /// Takes a line of the name node alone, without its name; its result lines.
    pub fn answer(&mut self, text: &[u8], nodes: usize) -> Vec<u8> {
        let (word, rest) = text.split_at(text.iter().position(|&byte| byte == b' ').unwrap_or(text.len()));
        let line = [word, b" ", LEAD, rest, b"\n"].concat();
        match Script::of_line(&line, LEAD, nodes).next() {
            _ if text.is_empty() || text.starts_with(b"#") => {}
            Some(Ok(Line::Takeover(_) | Line::Submit(..) | Line::Roll(_) | Line::Close(_) | Line::Tail(_))) if self.is_broken() => {}
            Some(Ok(Line::Checkpoint(_) | Line::Reload(_) | Line::Trim(..))) if self.is_broken() => {}
            Some(Ok(line @ (Line::Takeover(_) | Line::Submit(..) | Line::Roll(_) | Line::Close(_) | Line::Tail(_)))) => self.take(line),
            Some(Ok(line @ (Line::Checkpoint(_) | Line::Reload(_) | Line::Trim(..)))) => self.take(line),
            Some(Err(bad)) => self.tell_number(0, b"= bad", bad.rule),
            _ => self.tell_number(0, b"= bad", 2),
        }
        std::mem::take(&mut self.cluster.told)
    }

    /// Whether the name node alone met a bad entry.
    fn is_broken(&self) -> bool {
        self.first_standby().is_some_and(|standby| standby.is_broken)
    }

    /// How many bytes its lists have so far.
    fn length(&self) -> usize {
        self.cluster.length + self.actors.iter().map(|actor| actor.caller.record.length()).sum::<usize>()
    }

    /// Takes a line.
    pub fn take(&mut self, line: Line) {
        match line {
            Line::Begin(nodes, with_names) => {
                self.cluster = Cluster::new(nodes, self.cluster.keeps);
                self.with_names = with_names;
            }
            Line::Declare(name) => {
                let caller = Caller::new(name, &mut self.cluster, self.keeps_places);
                let standby = self.with_names.then(Standby::new);
                self.actors.push(Actor { caller, writer: Writer::default(), standby });
            }
            Line::Takeover(actor) => self.take_over(actor),
            Line::Log(actor, batch) => self.log(actor, batch),
            Line::Submit(actor, edits) => self.submit(actor, &edits),
            Line::Roll(actor) => self.end_segment(actor, b"= roll", |writer, net| writer.roll(net)),
            Line::Close(actor) => self.end_segment(actor, b"= close", |writer, net| writer.close(net)),
            Line::Purge(actor, below) => self.purge(actor, below),
            Line::Trim(actor, extra) => self.trim(actor, extra),
            Line::Tail(actor) => self.tail(actor),
            Line::Checkpoint(actor) => self.stand(actor, b"= checkpoint", Standby::checkpoint),
            Line::Reload(actor) => self.stand(actor, b"= reload", Standby::reload),
            Line::Drop(actor, node, next) => self.actors[actor].caller.drop_call(node, next),
            Line::Mute(actor, node, next) => self.actors[actor].caller.mute_call(node, next),
            Line::Late(actor, node, number) => self.actors[actor].caller.send_late(&mut self.cluster, node, number),
            Line::Operate(node, order) => {
                let (asked, told) = self.cluster.operate(node, order);
                let record = self.operator.get_or_insert_with(Lines::default);
                let line = text::Line { before: before_call(node), asked, told };
                record.push(line, node_digits(node).len() + 1, &self.cluster.texts);
            }
        }
    }

    /// The writer of an actor, with what it makes calls by, and what it has beside it.
    fn parts(&mut self, actor: usize) -> (&mut Writer, Net<'_>, &mut Option<Standby>) {
        let Actor { caller, writer, standby } = &mut self.actors[actor];
        (writer, Net { caller, cluster: &mut self.cluster }, standby)
    }

    /// Appends a result line of an actor.
    fn tell(&mut self, actor: usize, line: &[u8]) {
        self.actors[actor].caller.tell(&mut self.cluster, line);
    }

    /// Tells a result that is a word and a number.
    fn tell_number(&mut self, actor: usize, word: &[u8], number: u64) {
        let mut line = word.to_vec();
        push_next_number(&mut line, number);
        self.tell(actor, &line);
    }

    /// Tells that a task wasn't done. After a round that was aborted a name node stands as after a reload.
    fn tell_failure(&mut self, actor: usize, word: &[u8], failure: &Failure) {
        let line = failure_line(word, failure);
        self.tell(actor, &line);
        self.settle(actor, failure);
    }

    fn settle(&mut self, actor: usize, failure: &Failure) {
        if let (Failure::Aborted(_), Some(standby)) = (failure, &mut self.actors[actor].standby) {
            standby.reload();
        }
    }

    // ## The lines of an actor

    fn take_over(&mut self, actor: usize) {
        let (writer, mut net, _) = self.parts(actor);
        let (epoch, first) = match writer.take_over(&mut net) {
            Ok(taken) => taken,
            Err(failure) => return self.tell_failure(actor, b"= takeover", &failure),
        };
        match self.catch_up(actor, first) {
            Ok(()) => {}
            Err(Some(line)) => return self.tell(actor, &line),
            Err(None) => return,
        }
        self.counts.takeovers += 1;
        let mut line = b"= takeover".to_vec();
        push_next_number(&mut line, epoch);
        push_next_number(&mut line, first);
        self.tell(actor, &line);
    }

    /// A name node tails up to the edit before its first segment, and only then is active; else the result line, or none behind a bad
    /// entry.
    fn catch_up(&mut self, actor: usize, first: u64) -> Result<(), Option<Vec<u8>>> {
        let (writer, mut net, standby) = self.parts(actor);
        let Some(standby) = standby else { return Ok(()) };
        if standby.position > first - 1 {
            standby.clear();
        }
        match standby.tail(&mut net, Some(first - 1)) {
            Tailed::CaughtUp => {
                standby.position = first;
                Ok(())
            }
            Tailed::BadEntry => Err(None),
            tailed => {
                writer.stop();
                let mut line = b"= takeover".to_vec();
                push_tailed(&mut line, standby.position, &tailed);
                Err(Some(line))
            }
        }
    }

    /// `log` of a script without names.
    fn log(&mut self, actor: usize, mut batch: Batch) {
        let (writer, mut net, _) = self.parts(actor);
        let first = writer.next().unwrap_or(0);
        let result = writer.log(&mut net, &mut batch);
        for txid in first..first + batch.count() {
            match &result {
                Ok(()) => self.tell_acked(actor, txid),
                Err(failure) => self.tell_unlogged(actor, failure),
            }
        }
    }

    fn tell_acked(&mut self, actor: usize, txid: u64) {
        self.counts.edits += 1;
        self.counts.acked += 1;
        if self.cluster.tells() {
            self.tell_number(actor, b"= acked", txid);
        }
    }

    /// Tells of an edit that it wasn't logged, and counts it.
    fn tell_unlogged(&mut self, actor: usize, failure: &Failure) {
        self.counts.edits += 1;
        match failure {
            Failure::Aborted(_) => self.counts.aborted += 1,
            Failure::Inactive => self.counts.inactive += 1,
            _ => self.counts.too_long += 1,
        }
        let line = failure_line(b"=", failure);
        self.tell(actor, &line);
    }

    /// `log` of a script with names: each edit is admitted against the namespace with the pending ones, which are then logged as one
    /// batch. MODEL.md, "Standbys and active name nodes".
    fn submit(&mut self, actor: usize, edits: &[Record]) {
        if !self.actors[actor].writer.is_active() {
            return edits.iter().for_each(|_| self.tell_unlogged(actor, &Failure::Inactive));
        }
        let mut batch = Batch::new();
        let dues: Vec<Due> = edits.iter().map(|edit| self.judge_edit(actor, edit, &mut batch)).collect();
        let (writer, mut net, standby) = self.parts(actor);
        let first = writer.next().unwrap_or(0);
        let mut result = Ok(());
        if batch.count() > 0 {
            result = writer.journal(&mut net, &mut batch);
        }
        if let (Ok(()), Some(standby)) = (&result, standby) {
            standby.position += batch.count();
        }
        let mut txid = first;
        for due in dues {
            match (due, &result) {
                (Due::Logged, Ok(())) => {
                    self.tell_acked(actor, txid);
                    txid += 1;
                }
                (Due::Logged, Err(failure)) => self.tell_unlogged(actor, failure),
                // (it repeats a call of the batch that wasn't logged)
                (Due::Repeated(txid), Err(failure)) if txid >= first => self.tell_unlogged(actor, failure),
                (due, _) => self.tell_due(actor, &due),
            }
        }
        if let Err(failure) = result {
            self.settle(actor, &failure);
        }
    }

    /// What becomes of one edit: the namespace is asked first, then the limits. Where it is to be logged it pends.
    fn judge_edit(&mut self, actor: usize, edit: &Record, batch: &mut Batch) -> Due {
        let Actor { writer, standby, .. } = &mut self.actors[actor];
        let (Some(next), Some(standby)) = (writer.next(), standby) else { return Due::TooLong(0) };
        let mut body = Vec::with_capacity(128);
        edit.push_bytes(&mut body);
        let limit = writer.limit_of(batch.count() + 1, body.len());
        let admitted = match limit {
            Some(_) => standby.space.judge(edit),
            None => standby.space.apply(edit, next + batch.count()),
        };
        match (admitted, limit) {
            (Err(Refused::Repeated(txid)), _) => Due::Repeated(txid),
            (Err(Refused::For(cause)), _) => Due::Refused(cause),
            (Ok(()), Some(limit)) => Due::TooLong(limit),
            (Ok(()), None) => {
                batch.push(&body);
                Due::Logged
            }
        }
    }

    /// Tells of an edit that doesn't pend.
    fn tell_due(&mut self, actor: usize, due: &Due) {
        self.counts.edits += 1;
        match *due {
            Due::Refused(cause) => {
                self.counts.refused += 1;
                let line = format!("= refused {} {cause:?}", cause as u64);
                self.tell(actor, line.as_bytes());
            }
            Due::Repeated(txid) => self.tell_number(actor, b"= repeated", txid),
            Due::TooLong(limit) => {
                self.counts.too_long += 1;
                self.tell_number(actor, b"= toolong", limit);
            }
            Due::Logged => {}
        }
    }

    /// `roll` and `close`; the records that begin and end segments change no namespace.
    fn end_segment(&mut self, actor: usize, word: &[u8], task: fn(&mut Writer, &mut Net) -> Result<u64, Failure>) {
        let (writer, mut net, standby) = self.parts(actor);
        let result = task(writer, &mut net);
        if let (Ok(txid), Some(standby)) = (&result, standby) {
            standby.position = *txid;
        }
        match result {
            Ok(txid) => self.tell_number(actor, word, txid),
            Err(failure) => self.tell_failure(actor, word, &failure),
        }
    }

    fn purge(&mut self, actor: usize, below: u64) {
        let (writer, mut net, _) = self.parts(actor);
        match writer.purge(&mut net, below) {
            Ok(()) => self.tell(actor, b"= purge ok"),
            Err(failure) => self.tell_failure(actor, b"= purge", &failure),
        }
    }

    fn trim(&mut self, actor: usize, extra: u64) {
        let (writer, mut net, standby) = self.parts(actor);
        if !writer.is_active() {
            return self.tell(actor, b"= trim inactive");
        }
        let Some(below) = standby.as_ref().and_then(|standby| standby.trim_below(extra)) else {
            return self.tell(actor, b"= trim noimage");
        };
        match writer.purge(&mut net, below) {
            Ok(()) => self.tell_number(actor, b"= trim", below),
            Err(failure) => self.tell_failure(actor, b"= trim", &failure),
        }
    }

    fn tail(&mut self, actor: usize) {
        if self.actors[actor].writer.is_active() {
            return self.tell(actor, b"= active");
        }
        let (_, mut net, standby) = self.parts(actor);
        let Some(standby) = standby else { return };
        let mut line = b"= tail".to_vec();
        let tailed = standby.tail(&mut net, None);
        if !standby.is_broken {
            push_tailed(&mut line, standby.position, &tailed);
            self.tell(actor, &line);
        }
    }

    /// `checkpoint` and `reload`, of a standby alone.
    fn stand(&mut self, actor: usize, word: &[u8], task: fn(&mut Standby)) {
        let Actor { writer, standby, .. } = &mut self.actors[actor];
        match standby {
            Some(standby) if !writer.is_active() => {
                task(standby);
                let position = standby.position;
                self.tell_number(actor, word, position);
            }
            _ => self.tell(actor, b"= active"),
        }
    }

    // ## What comes of it

    /// What the first actor has beside its writer.
    pub fn first_standby(&self) -> Option<&Standby> {
        self.actors.first().and_then(|actor| actor.standby.as_ref())
    }

    /// What `lead` answers to who asks what it is. FORMATS.md, "The program".
    pub fn state(&self) -> Vec<u8> {
        let mut line = Vec::new();
        if let Some(Actor { writer, standby: Some(standby), .. }) = self.actors.first() {
            if standby.is_broken {
                return b"= broken\n".to_vec();
            }
            let (word, number) = if writer.is_active() { (b"= active".as_slice(), writer.epoch()) } else { (b"= standby".as_slice(), standby.position) };
            line.extend_from_slice(word);
            push_next_number(&mut line, number);
            line.push(b'\n');
        }
        line
    }

    /// The position of the actor of this name; 0 where there is none.
    pub fn position(&self, name: &[u8]) -> u64 {
        let actor = self.actors.iter().find(|actor| actor.caller.name == name);
        actor.and_then(|actor| actor.standby.as_ref()).map_or(0, |standby| standby.position)
    }

    /// The greatest last txid of a journal round that was done.
    pub fn last_journaled(&self) -> u64 {
        self.actors.iter().map(|actor| actor.writer.last_journaled).max().unwrap_or(0)
    }

    /// The report.
    fn into_report(self) -> Report {
        let nodes = all_before(self.cluster.count());
        let (histories, callers, texts) = self.cluster.into_parts();
        let mut listed = Vec::new();
        for actor in self.actors {
            let rows = actor.standby.map_or(Vec::new(), |standby| standby.rows());
            listed.push(Listed { name: actor.caller.name, record: actor.caller.record, rows });
        }
        if let Some(record) = self.operator {
            listed.push(Listed { name: b"ops".to_vec(), record, rows: Vec::new() });
        }
        Report { texts, callers, nodes, histories, listed }
    }
}

/// A result line that says why something wasn't done.
fn failure_line(word: &[u8], failure: &Failure) -> Vec<u8> {
    let mut line = word.to_vec();
    match failure {
        Failure::Inactive => line.extend_from_slice(b" inactive"),
        Failure::Aborted(causes) => {
            line.extend_from_slice(b" aborted");
            push_causes(&mut line, causes);
        }
        Failure::Limit(told) => {
            line.extend_from_slice(b" limit");
            push_next_number(&mut line, *told);
        }
        Failure::TooLong(limit) => {
            line.extend_from_slice(b" toolong");
            push_next_number(&mut line, *limit);
        }
    }
    line
}

/// How a tail ended: ` T`, ` purged FIRST`, or ` behind T CAUSES`; nothing is told of a bad entry.
fn push_tailed(line: &mut Vec<u8>, position: u64, tailed: &Tailed) {
    match tailed {
        Tailed::CaughtUp => push_next_number(line, position),
        Tailed::Purged(first) => {
            line.extend_from_slice(b" purged");
            push_next_number(line, *first);
        }
        Tailed::Behind(causes) => {
            line.extend_from_slice(b" behind");
            push_next_number(line, position);
            push_causes(line, causes);
        }
        Tailed::BadEntry => {}
    }
}
