//! A model of qjm, written from its documents alone: docs/FORMATS.md, EDITS.md, FILES.md, MODEL.md and GLOSSARY.md. It answers each command with
//! the same bytes, statuses and files. Nothing of it is proved: it is there to be compared with the proved program, and to be measured
//! beside it. Each rule names the page that it was taken from.

mod back;
mod batch;
mod boot;
mod caller;
mod chores;
mod cluster;
mod disk;
mod edit;
mod ends;
mod folder;
mod fsck;
mod generated;
mod image;
mod images;
mod json;
mod judge;
mod lists;
mod md5;
mod mirror;
mod names;
mod node;
mod oev;
mod oiv;
mod opening;
mod pipes;
mod play;
mod recent;
mod reply;
mod report;
mod request;
mod rows;
mod script;
mod segment;
mod serve;
mod space;
mod standby;
mod states;
mod table;
mod text;
mod tree;
mod value;
mod words;
mod writer;

use back::Refusal;
use ends::Ending;
use script::BadLine;
use segment::{Damage, MOST_EDITS};
use std::ffi::{OsStr, OsString};
use std::fs::{self, File};
use std::io::Read;
use std::ops::RangeInclusive;
use std::process::ExitCode;

/// The most bytes of a script, and of a file that is listed. FORMATS.md, "Limits".
const LONGEST_SCRIPT: usize = 1_048_576;
const LONGEST_FILE: u64 = 134_217_728;

/// The ranges of NUMBER, EDITS and NODES, and of START and EPOCH. FORMATS.md, "The program".
const OF_GEN: [RangeInclusive<u64>; 3] = [0..=words::LARGEST, 0..=10_000, 1..=15];
const OF_BACK: [RangeInclusive<u64>; 2] = [1..=words::LARGEST, 1..=words::LARGEST];

fn main() -> ExitCode {
    let words: Vec<OsString> = std::env::args_os().skip(1).collect();
    let plain: Vec<&str> = words.iter().map_while(|word| word.to_str()).collect();
    let ending = if plain.len() < words.len() { usage_before_bad_text(&plain) } else { run(&plain) };
    ending.finish()
}

/// A word that isn't UTF-8 is no command's: it may stand nowhere. FORMATS.md, "The program", status 1.
fn usage_before_bad_text(plain: &[&str]) -> Ending {
    match shape(plain) {
        Err(place) if place < plain.len() => Ending::Usage(place),
        _ => Ending::Usage(plain.len()),
    }
}

/// The words of a command, or the place of the first word at which they stop being a prefix of one.
fn shape(words: &[&str]) -> Result<(), usize> {
    let second: &[&str] = match words.first().copied() {
        Some("play" | "run" | "piped" | "mirror" | "boot" | "node" | "fsck" | "judge" | "states") => return exact(words, 1),
        Some("gen") => return shape_with_numbers(words, 1, &OF_GEN),
        Some("serve") => return shape_with_folder(words, 1..=64, &[]),
        Some("lead") => return shape_with_folder(words, 1..=15, &[1..=3600]),
        Some("oev") if words.get(1) == Some(&"back") => return shape_with_numbers(words, 3, &OF_BACK),
        Some("oev") => &["list", "stats", "json"],
        Some("oiv") if words.get(1) == Some(&"ls") => return shape_with_path(words),
        Some("oiv") => &["delimited", "sizes", "json"],
        _ => return Err(0),
    };
    match words.get(1) {
        Some(word) if second.contains(word) => exact(words, 3),
        _ => Err(1),
    }
}

/// So many words, each of them good.
fn exact(words: &[&str], count: usize) -> Result<(), usize> {
    match words.len() {
        length if length == count => Ok(()),
        length => Err(length.min(count)),
    }
}

/// So many words, and then a number in each of the ranges.
fn shape_with_numbers(words: &[&str], first: usize, ranges: &[RangeInclusive<u64>]) -> Result<(), usize> {
    for (place, range) in (first..).zip(ranges) {
        let number = words.get(place).and_then(|word| words::read_number(word.as_bytes()));
        if !number.is_some_and(|number| range.contains(&number)) {
            return Err(place.min(words.len()));
        }
    }
    exact(words, first + ranges.len())
}

/// A number, and then nothing, or a folder, or a folder and a number in each of the ranges.
fn shape_with_folder(words: &[&str], count: RangeInclusive<u64>, behind: &[RangeInclusive<u64>]) -> Result<(), usize> {
    match words.len() {
        0..=2 => shape_with_numbers(words, 1, &[count]),
        3 => shape_with_numbers(&words[..2], 1, &[count]),
        _ => shape_with_numbers(&words[..2], 1, &[count]).and_then(|()| shape_with_numbers(words, 3, behind)),
    }
}

/// A name, and then a path.
fn shape_with_path(words: &[&str]) -> Result<(), usize> {
    match words.get(3) {
        Some(path) if !path.starts_with('/') => Err(3),
        _ => exact(words, 4),
    }
}

/// The numbers of words that have the shape.
fn number(word: &str) -> u64 {
    words::read_number(word.as_bytes()).unwrap_or(0)
}

/// Does what the words say.
fn run(words: &[&str]) -> Ending {
    if let Err(place) = shape(words) {
        return Ending::Usage(place);
    }
    match words {
        // `run` and `piped` are played too: what they print where one actor's lines don't fall among another's.
        ["play" | "run"] => with_script(play),
        ["piped"] => with_script(piped),
        ["mirror"] => with_script(mirror),
        ["boot"] => with_script(boot),
        ["judge"] => with_report(judge::judge),
        ["states"] => with_report(states::states),
        ["node"] => serve::serve(),
        ["serve", clients] => pipes::serve(number(clients), "clients"),
        ["serve", clients, folder] => pipes::serve(number(clients), folder),
        ["lead", nodes] => pipes::lead(number(nodes) as usize, "nodes"),
        // (the model's reads wait as long as it takes)
        ["lead", nodes, folder, ..] => pipes::lead(number(nodes) as usize, folder),
        ["fsck"] => match fsck::check() {
            Ok((text, 0)) => Ending::Ok(text),
            Ok((text, _)) => Ending::Unsound(text),
            Err(_) => Ending::DiskFault,
        },
        ["oev", "list", name] => list_file(name, oev::list),
        ["oev", "stats", name] => list_file(name, oev::stats),
        ["oev", "json", name] => list_file(name, oev::json),
        ["oev", "back", name, start, epoch] => back_from_file(name, number(start), number(epoch)),
        ["oiv", "delimited", name] => list_file(name, oiv::delimited),
        ["oiv", "sizes", name] => list_file(name, oiv::sizes),
        ["oiv", "json", name] => list_file(name, oiv::json),
        ["oiv", "ls", name, path] => list_file(name, |bytes| oiv::ls(bytes, path.as_bytes())),
        ["gen", seed, edits, nodes] => Ending::Ok(generated::summary(number(seed), number(edits), number(nodes) as usize)),
        _ => Ending::Usage(words.len()),
    }
}

/// Reads a script from the standard input, and does something with it.
fn with_script(take: fn(&[u8]) -> Result<Ending, BadLine>) -> Ending {
    let Ok(script) = ends::read_all(LONGEST_SCRIPT) else { return Ending::ReadFault };
    if script.len() > LONGEST_SCRIPT {
        return Ending::Limit(LONGEST_SCRIPT as u64);
    }
    take(&script).unwrap_or_else(|bad| Ending::BadScript { line: bad.line, rule: bad.rule })
}

/// Plays a script, for its report.
fn play(script: &[u8]) -> Result<Ending, BadLine> {
    Ok(match play::play_script(script)? {
        Some(report) => Ending::Report(report),
        None => Ending::Limit(play::LONGEST_REPORT as u64),
    })
}

/// Plays a script that pipes carry: one without names and late copies. On one line the rules 10, 1 and 2 of scripts come before
/// those of pipes, and the others after them.
fn piped(script: &[u8]) -> Result<Ending, BadLine> {
    let other = script::line_of_no_pipe(script);
    match (play(script), other) {
        (Err(own), Some(other)) if own.line < other.line || (own.line == other.line && matches!(own.rule, 1 | 2 | 10)) => Err(own),
        (_, Some(other)) => Err(other),
        (own, None) => own,
    }
}

/// Plays a script, for what a mirror of its nodes holds then.
fn mirror(script: &[u8]) -> Result<Ending, BadLine> {
    play::mirror_script(script).map(Ending::Ok)
}

/// Plays a script with names, for what a fresh standby comes to over its nodes then.
fn boot(script: &[u8]) -> Result<Ending, BadLine> {
    Ok(match play::boot_script(script)? {
        Some(text) => Ending::Ok(text),
        None => Ending::Limit(play::LONGEST_REPORT as u64),
    })
}

/// Reads a report from the standard input, and does something with it.
fn with_report(take: fn(&[u8]) -> Result<Ending, BadLine>) -> Ending {
    let Ok(report) = ends::read_all(play::LONGEST_REPORT) else { return Ending::ReadFault };
    if report.len() > play::LONGEST_REPORT {
        return Ending::Limit(play::LONGEST_REPORT as u64);
    }
    take(&report).unwrap_or_else(|bad| Ending::BadReport { line: bad.line, rule: bad.rule })
}

/// Lists a file of the current folder.
fn list_file(name: &str, list: impl Fn(&[u8]) -> Result<Vec<u8>, Damage>) -> Ending {
    match read_file(OsStr::new(name)) {
        Ok(bytes) => match list(&bytes) {
            Ok(text) => Ending::Ok(text),
            Err(Damage { place, cause }) => Ending::BadBytes { place, cause },
        },
        Err(ending) => ending,
    }
}

/// Makes a segment's file of a listing. EDITS.md, "From a listing back to a segment's file", has the order of what may be wrong.
fn back_from_file(name: &str, start: u64, epoch: u64) -> Ending {
    let bytes = match read_file(OsStr::new(name)) {
        Ok(bytes) => bytes,
        Err(ending) => return ending,
    };
    match back::back(&bytes, start, epoch) {
        Ok(segment) => Ending::Ok(segment),
        Err(Refusal::NotJson) => Ending::BadBytes { place: 0, cause: "Json" },
        Err(Refusal::TooLong) => Ending::Limit(MOST_EDITS),
        Err(Refusal::BadEntry(place)) => Ending::BadBytes { place, cause: "Entry" },
    }
}

/// The bytes of a file: NoFile for an absent one, an empty name, a folder or a device. FORMATS.md, "The program", statuses 3 and 4.
fn read_file(name: &OsStr) -> Result<Vec<u8>, Ending> {
    let absent = || Ending::BadBytes { place: 0, cause: "NoFile" };
    let metadata = match fs::metadata(name) {
        Err(error) if folder::is_absence(&error) => return Err(absent()),
        Err(_) => return Err(Ending::DiskFault),
        Ok(metadata) => metadata,
    };
    if !metadata.is_file() {
        return Err(absent());
    }
    if metadata.len() > LONGEST_FILE {
        return Err(Ending::Limit(LONGEST_FILE));
    }
    let mut bytes = Vec::with_capacity(metadata.len() as usize + 1);
    match File::open(name).and_then(|mut file| file.read_to_end(&mut bytes)) {
        Ok(_) => Ok(bytes),
        Err(_) => Err(Ending::DiskFault),
    }
}
