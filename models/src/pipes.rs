//! `serve` and `lead`: a node and a name node over named pipes. FORMATS.md, "Lines on pipes" and "The program".

use crate::batch::Batch;
use crate::ends::{self, Ending};
use crate::folder::Folder;
use crate::images;
use crate::node::Node;
use crate::play::Play;
use crate::reply::Reply;
use crate::request::Request;
use crate::serve::{self, open_folder};
use crate::standby::Standby;
use crate::words::{push_number, push_padded, read_number, read_padded, LARGEST};
use std::fs::{self, File, OpenOptions};
use std::io::{self, BufRead, BufReader, Read, Write};
use std::os::unix::fs::FileTypeExt;
use std::sync::mpsc::{self, Sender};
use std::sync::{Arc, Mutex, PoisonError};
use std::thread;
use std::time::Duration;

const LONGEST_LINE: usize = 1_048_576;
/// Above this the text of an acceptance could come near the longest line: a `roll` is put in.
const MOST_USED: usize = 800_000;
/// How long a node waits where a client has no pipes.
const PAUSE: Duration = Duration::from_millis(100);

// ## Lines

/// `#LIFE CALL TEXT .`, without its LF.
fn read_tagged(line: &[u8]) -> Option<(u64, u64, &[u8])> {
    let text = line.strip_prefix(b"#")?.strip_suffix(b" .")?;
    let mut words = text.splitn(3, |&byte| byte == b' ');
    Some((read_number(words.next()?)?, read_number(words.next()?)?, words.next()?))
}

/// The front of a tagged line.
fn begin_tagged(line: &mut Vec<u8>, life: u64, call: u64) {
    line.clear();
    line.push(b'#');
    push_number(line, life);
    line.push(b' ');
    push_number(line, call);
    line.push(b' ');
}

/// The next line that an LF ends, without it; false where there is none, or it is too long: then it has the longest line's bytes.
fn read_line(source: &mut BufReader<File>, line: &mut Vec<u8>) -> io::Result<bool> {
    line.clear();
    source.by_ref().take(LONGEST_LINE as u64 + 1).read_until(b'\n', line)?;
    Ok(line.pop() == Some(b'\n'))
}

/// A pipe of a folder: a file that is none counts as absent.
fn pipe(folder: &str, number: usize, name: &str) -> io::Result<String> {
    let path = format!("{folder}/{number}.{name}");
    match fs::metadata(&path)?.file_type().is_fifo() {
        true => Ok(path),
        false => Err(io::ErrorKind::InvalidInput.into()),
    }
}

// ## A node

/// Serves the node of the current folder to its clients, a thread each. At the end of the input it ends at once.
pub fn serve(clients: u64, folder: &str) -> Ending {
    let node = match open_folder().and_then(serve::open_node) {
        Ok(node) => Arc::new(Mutex::new(node)),
        Err(ending) => return ending,
    };
    let (end, ends) = mpsc::channel();
    for client in 1..=clients as usize {
        let (node, folder, end) = (Arc::clone(&node), folder.to_owned(), end.clone());
        thread::spawn(move || serve_client(&node, client, &folder, &end));
    }
    thread::spawn(move || {
        let mut room = [0; 64];
        while matches!(ends::read(&mut room), Ok(1..)) {}
        let _ = end.send(Ending::Ok(Vec::new()));
    });
    ends.recv().unwrap_or(Ending::DiskFault)
}

/// All sessions of a client.
fn serve_client(node: &Mutex<Node<Folder>>, client: usize, folder: &str, end: &Sender<Ending>) {
    loop {
        let Ok((source, sink)) = open_to_answer(folder, client) else {
            thread::sleep(PAUSE);
            continue;
        };
        // (a fault of the client's pipes ends the session alone)
        if let Ok(Some(ending)) = serve_session(node, source, sink) {
            let _ = end.send(ending);
            return;
        }
    }
}

fn open_to_answer(folder: &str, client: usize) -> io::Result<(File, File)> {
    let (requests, replies) = (pipe(folder, client, "requests")?, pipe(folder, client, "replies")?);
    Ok((File::open(requests)?, OpenOptions::new().write(true).open(replies)?))
}

/// A session of a client; how the node ends, where its disk fails.
fn serve_session(node: &Mutex<Node<Folder>>, source: File, mut sink: File) -> io::Result<Option<Ending>> {
    let mut source = BufReader::with_capacity(64 * 1024, source);
    let (mut line, mut out, mut room) = (Vec::new(), Vec::new(), Batch::new());
    loop {
        if !read_line(&mut source, &mut line)? {
            // (the front of a line is none, and nothing is told of it)
            if line.len() < LONGEST_LINE {
                return Ok(None);
            }
            break;
        }
        let Some((life, call, text)) = read_tagged(&line) else { break };
        let Ok(request) = Request::read(text, &mut room) else { break };
        begin_tagged(&mut out, life, call);
        match node.lock().unwrap_or_else(PoisonError::into_inner).answer(&request) {
            Ok(reply) => reply.push_text(&mut out),
            Err(_) => return Ok(Some(Ending::DiskFault)),
        }
        out.extend_from_slice(b" .\n");
        sink.write_all(&out)?;
    }
    sink.write_all(b"bad\n")?;
    Ok(None)
}

// ## A name node

/// The pipe to a node: in use from its opening on, until a fault.
pub struct FarNode {
    folder: String,
    number: usize,
    life: u64,
    calls: u64,
    ends: Option<(BufReader<File>, File)>,
    /// Whether a request was written, and its reply wasn't asked for yet.
    is_asked: bool,
    line: Vec<u8>,
}

impl FarNode {
    fn new(folder: &str, number: usize, life: u64) -> FarNode {
        FarNode { folder: folder.to_owned(), number, life, calls: 0, ends: None, is_asked: false, line: Vec::new() }
    }

    /// Writes a request, where the pipe is in use; one to join with opens it first.
    pub fn send(&mut self, request: &Request) {
        if self.ends.is_none() && matches!(request, Request::State | Request::Start(..) | Request::Read(_)) {
            self.ends = self.open().ok();
        }
        self.is_asked = true;
        let Some((_, sink)) = &mut self.ends else { return };
        self.calls += 1;
        begin_tagged(&mut self.line, self.life, self.calls);
        request.push_text(&mut self.line);
        self.line.extend_from_slice(b" .\n");
        if sink.write_all(&self.line).is_err() {
            self.ends = None;
        }
    }

    fn open(&self) -> io::Result<(BufReader<File>, File)> {
        let pipe = |name| pipe(&self.folder, self.number, name);
        let (requests, replies) = (pipe("requests")?, pipe("replies")?);
        let sink = OpenOptions::new().write(true).open(requests)?;
        Ok((BufReader::with_capacity(64 * 1024, File::open(replies)?), sink))
    }

    /// The reply to a request, which is sent where it wasn't before; none where it doesn't come or doesn't fit, and the pipe isn't in use
    /// then.
    pub fn hear(&mut self, request: &Request) -> Option<Reply> {
        if !self.is_asked {
            self.send(request);
        }
        self.is_asked = false;
        let reply = self.hear_own(request);
        if reply.is_none() {
            self.ends = None;
        }
        reply
    }

    fn hear_own(&mut self, request: &Request) -> Option<Reply> {
        let (source, _) = self.ends.as_mut()?;
        loop {
            if !read_line(source, &mut self.line).ok()? {
                return None;
            }
            let (life, call, text) = read_tagged(&self.line)?;
            if (life, call) == (self.life, self.calls) {
                return Reply::read(text, request);
            }
        }
    }
}

/// Is a name node over so many nodes: takes the lines of the standard input one by one.
pub fn lead(nodes: usize, folder: &str) -> Ending {
    let _folder = match open_folder() {
        Ok(folder) => folder,
        Err(ending) => return ending,
    };
    let life = match count_start() {
        Ok(life) => life,
        Err(ending) => return ending,
    };
    let standby = match images::load_newest() {
        Ok(images) => Standby::with_images(images),
        Err(ending) => return ending,
    };
    let mut play = Play::over((1..=nodes).map(|number| FarNode::new(folder, number, life)).collect(), standby);
    let (mut lines, mut line, mut used) = (BufReader::new(ends::input()), Vec::new(), 0);
    loop {
        match read_line(&mut lines, &mut line) {
            Ok(true) => {}
            Ok(false) if line.len() >= LONGEST_LINE => return Ending::Limit(LONGEST_LINE as u64),
            Ok(false) => return Ending::Ok(Vec::new()),
            Err(_) => return Ending::ReadFault,
        }
        used = match &line[..] {
            b"takeover" | b"roll" => 0,
            line if line.starts_with(b"log ") => used + line.len() * 10 + 32,
            _ => used,
        };
        let mut told = if line == b"state" { play.state() } else { play.answer(&line, nodes) };
        // (an image is in the folder before its result is written)
        if told.starts_with(b"= checkpoint") {
            let image = play.first_standby().map(Standby::snapshot);
            if image.is_some_and(|image| images::save(&image).is_err()) {
                return Ending::DiskFault;
            }
        }
        if used > MOST_USED {
            used = 0;
            told.extend(play.answer(b"roll", nodes));
        }
        if ends::write(&told).is_err() {
            return Ending::WriteFault;
        }
    }
}

/// Counts a start in the file `starts`, which is put all or nothing. FILES.md, "Files of a node".
fn count_start() -> Result<u64, Ending> {
    let before = match fs::read("starts") {
        Err(error) if error.kind() == io::ErrorKind::NotFound => 0,
        Err(_) => return Err(Ending::DiskFault),
        Ok(bytes) => bytes.strip_suffix(b"\n").and_then(read_padded).ok_or(Ending::BadFile(b"starts".to_vec()))?,
    };
    if before >= LARGEST {
        return Err(Ending::Limit(LARGEST));
    }
    let mut text = Vec::new();
    push_padded(&mut text, before + 1);
    text.push(b'\n');
    let put = || -> io::Result<()> {
        let mut file = File::create("starts.tmp")?;
        file.write_all(&text)?;
        file.sync_all()?;
        fs::rename("starts.tmp", "starts")?;
        File::open(".")?.sync_all()
    };
    put().map(|()| before + 1).map_err(|_| Ending::DiskFault)
}
