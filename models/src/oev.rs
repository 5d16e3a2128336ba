//! The listings of a segment's file. EDITS.md, "Listings of a segment's file".

use crate::batch::Bodies;
use crate::edit::{kind_name, Edit, Record, WITH_CALL};
use crate::json;
use crate::segment::{Damage, SegmentFile};
use crate::words::{push_hex, push_next_number, push_number, push_octal};

/// Hands each edit of a file over with its txid and the first byte of its record; else the file's first damage.
fn read_edits(bytes: &[u8], mut take: impl FnMut(u64, u8, &Record)) -> Result<(), Damage> {
    let mut file = SegmentFile::open(bytes)?;
    while let Some(frame) = file.next_frame()? {
        let mut place = frame.place + crate::batch::FRAME_HEAD + 2;
        for (txid, body) in (frame.first..).zip(Bodies { entries: frame.entries }) {
            let record = Record::decode(body).map_err(|cause| Damage { place, cause })?;
            take(txid, body[0], &record);
            place += body.len() + 2;
        }
    }
    Ok(())
}

/// `oev list`: a line for each edit.
pub fn list(bytes: &[u8]) -> Result<Vec<u8>, Damage> {
    let mut text = Vec::new();
    read_edits(bytes, |txid, _, record| push_line(&mut text, txid, record))?;
    Ok(text)
}

/// `oev stats`: how many edits of each first byte there are.
pub fn stats(bytes: &[u8]) -> Result<Vec<u8>, Damage> {
    let mut counts = [0_u64; 256];
    read_edits(bytes, |_, code, _| counts[usize::from(code)] += 1)?;
    let mut text = Vec::new();
    for (code, &count) in counts.iter().enumerate().filter(|(_, count)| **count > 0) {
        let kind = kind_name(code as u8 % WITH_CALL).unwrap_or("");
        text.extend_from_slice(format!("OP_{kind} {code} {count}\n").as_bytes());
    }
    text.extend_from_slice(format!("total {}\n", counts.iter().sum::<u64>()).as_bytes());
    Ok(text)
}

/// `oev json`: one array of objects.
pub fn json(bytes: &[u8]) -> Result<Vec<u8>, Damage> {
    let mut text = b"[".to_vec();
    read_edits(bytes, |txid, _, record| {
        if text.len() > 1 {
            text.push(b',');
        }
        push_object(&mut text, txid, record);
    })?;
    text.extend_from_slice(b"]\n");
    Ok(text)
}

// ## Lines

/// An edit's line: its txid, its call, its kind and its fields.
fn push_line(text: &mut Vec<u8>, txid: u64, record: &Record) {
    push_number(text, txid);
    if let Some(call) = &record.call {
        text.extend_from_slice(b" call ");
        push_hex(text, &call.client);
        push_next_number(text, u64::from(call.number));
    }
    text.push(b' ');
    text.extend_from_slice(kind_name(record.edit.code()).unwrap_or("").as_bytes());
    push_fields(text, &record.edit);
    text.push(b'\n');
}

/// An empty text is `-`.
fn push_texts(text: &mut Vec<u8>, fields: &[&[u8]]) {
    for field in fields {
        text.push(b' ');
        text.extend_from_slice(if field.is_empty() { b"-" } else { field });
    }
}

fn push_numbers(text: &mut Vec<u8>, numbers: &[u64]) {
    for &number in numbers {
        push_next_number(text, number);
    }
}

fn push_permission(text: &mut Vec<u8>, permission: u16) {
    text.push(b' ');
    push_octal(text, permission);
}

fn push_fields(text: &mut Vec<u8>, edit: &Edit) {
    match edit {
        Edit::Add { path, replication, mtime, atime, block_size, permission, user, group } => {
            push_texts(text, &[path]);
            push_numbers(text, &[u64::from(*replication), *mtime, *atime, *block_size]);
            push_permission(text, *permission);
            push_texts(text, &[user, group]);
        }
        Edit::Mkdir { path, time, permission, user, group } => {
            push_texts(text, &[path]);
            push_numbers(text, &[*time]);
            push_permission(text, *permission);
            push_texts(text, &[user, group]);
        }
        Edit::RenameOld { source, destination, time } => {
            push_texts(text, &[source, destination]);
            push_numbers(text, &[*time]);
        }
        Edit::Rename { source, destination, time, overwrite } => {
            push_texts(text, &[source, destination]);
            push_numbers(text, &[*time]);
            push_texts(text, &[if *overwrite { b"yes" } else { b"no" }]);
        }
        Edit::Concat { target, time, sources } => {
            push_texts(text, &[target]);
            push_numbers(text, &[*time]);
            push_texts(text, sources);
        }
        _ => push_few_fields(text, edit),
    }
}

/// The fields of the kinds that have one path and then only numbers or names.
fn push_few_fields(text: &mut Vec<u8>, edit: &Edit) {
    match edit {
        Edit::Delete { path, time } => {
            push_texts(text, &[path]);
            push_numbers(text, &[*time]);
        }
        Edit::SetReplication { path, replication } => {
            push_texts(text, &[path]);
            push_numbers(text, &[u64::from(*replication)]);
        }
        Edit::SetPermissions { path, permission } => {
            push_texts(text, &[path]);
            push_permission(text, *permission);
        }
        Edit::SetOwner { path, user, group } => push_texts(text, &[path, user, group]),
        Edit::Close { path, mtime, atime, lengths } => {
            push_texts(text, &[path]);
            push_numbers(text, &[*mtime, *atime]);
            push_numbers(text, lengths);
        }
        Edit::Times { path, mtime: one, atime: other } | Edit::SetQuota { path, names: one, space: other } => {
            push_texts(text, &[path]);
            push_numbers(text, &[*one, *other]);
        }
        _ => {}
    }
}

// ## Objects

/// An edit's object; the keys stand in the order of their bytes.
fn push_object(text: &mut Vec<u8>, txid: u64, record: &Record) {
    let mut object = json::Object::begin(text);
    let kind = kind_name(record.edit.code()).unwrap_or("");
    push_keys_to_o(&mut object, record);
    object.op(kind);
    push_keys_from_o(&mut object, &record.edit, txid);
    object.end();
}

/// The keys from `atime` to `nsquota`, which stand before `op`.
fn push_keys_to_o(object: &mut json::Object, record: &Record) {
    if let Edit::Add { atime, .. } | Edit::Close { atime, .. } | Edit::Times { atime, .. } = &record.edit {
        object.number("atime", *atime);
    }
    if let Edit::Add { block_size, .. } = &record.edit {
        object.number("blocksize", *block_size);
    }
    if let Some(call) = &record.call {
        object.number("callid", u64::from(call.number));
        object.hexadecimal("clientid", &call.client);
    }
    match &record.edit {
        Edit::SetQuota { space, .. } => object.number("dsquota", *space),
        Edit::RenameOld { destination, .. } | Edit::Rename { destination, .. } => object.text("dst", destination),
        Edit::Add { group, .. } | Edit::Mkdir { group, .. } | Edit::SetOwner { group, .. } => object.text("group", group),
        Edit::Close { lengths, .. } => object.numbers("lengths", lengths),
        _ => {}
    }
    match &record.edit {
        Edit::Add { mtime, .. } | Edit::Close { mtime, .. } | Edit::Times { mtime, .. } => object.number("mtime", *mtime),
        Edit::SetQuota { names, .. } => object.number("nsquota", *names),
        _ => {}
    }
}

/// The keys from `overwrite` to `user`, which stand behind `op`.
fn push_keys_from_o(object: &mut json::Object, edit: &Edit, txid: u64) {
    if let Edit::Rename { overwrite, .. } = edit {
        object.truth("overwrite", *overwrite);
    }
    if let Some(path) = path_of(edit) {
        object.text("path", path);
    }
    match edit {
        Edit::Add { permission, .. } | Edit::Mkdir { permission, .. } | Edit::SetPermissions { permission, .. } => {
            object.number("permission", u64::from(*permission));
        }
        _ => {}
    }
    match edit {
        Edit::Add { replication, .. } | Edit::SetReplication { replication, .. } => {
            object.number("replication", u64::from(*replication));
        }
        Edit::Concat { sources, .. } => object.texts("sources", sources),
        Edit::RenameOld { source, .. } | Edit::Rename { source, .. } => object.text("src", source),
        _ => {}
    }
    if let Edit::Concat { target, .. } = edit {
        object.text("target", target);
    }
    match edit {
        Edit::RenameOld { time, .. }
        | Edit::Rename { time, .. }
        | Edit::Delete { time, .. }
        | Edit::Mkdir { time, .. }
        | Edit::Concat { time, .. } => object.number("time", *time),
        _ => {}
    }
    object.number("txid", txid);
    if let Edit::Add { user, .. } | Edit::Mkdir { user, .. } | Edit::SetOwner { user, .. } = edit {
        object.text("user", user);
    }
}

/// The path of an edit that has one, under the key `path`.
fn path_of<'a>(edit: &Edit<'a>) -> Option<&'a [u8]> {
    match *edit {
        Edit::Add { path, .. }
        | Edit::Delete { path, .. }
        | Edit::Mkdir { path, .. }
        | Edit::SetReplication { path, .. }
        | Edit::SetPermissions { path, .. }
        | Edit::SetOwner { path, .. }
        | Edit::Close { path, .. }
        | Edit::Times { path, .. }
        | Edit::SetQuota { path, .. } => Some(path),
        _ => None,
    }
}
