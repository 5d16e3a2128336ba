# The quick program: the same sources, compiled by one quick run without a proof, and kept until they change. It is what `rt try`
# compiles, with its checks: it copies itself to a file while it is tried.

# Where it is kept: beside what a build makes, or where that folder may not be written to in the user's own cache.
quick_folder=$top/crates/qjm/out/quick
if [ ! -w "$top/crates/qjm" ] && [ ! -d "$quick_folder" ]; then
  quick_folder=${XDG_CACHE_HOME:-${HOME:-/nonexistent}/.cache}/qjm-quick/$(printf '%s' "$top" | cksum | cut -d ' ' -f 1)
fi
quick_program=$quick_folder/program

# Whether the quick program of these sources is kept.
is_quick_kept() {
  [ -x "$quick_program" ] && are_noted "$quick_program"
}

# What the quick program does beside the program's commands: with the words `--keep FILE` it copies itself to that file. Its name
# is the word before these, as every program's is.
write_keeper() {
  cat <<'TEXT'

/// The name of the file that this program was started from.
fn own_name(rt: &HostRuntime) -> Option<String> {
    let Ok(mut bytes) = vec![in rt.alloc(); 0u8; 4096] else {
        return None;
    };
    let Ok(count) = rt.arg(0, &mut bytes) else {
        return None;
    };
    bytes.truncate(count);
    String::from_utf8(bytes).ok()
}

/// Whether this program was copied to the file of that name.
fn is_kept(rt: &HostRuntime, name: &str) -> bool {
    let Some(own) = own_name(rt) else {
        return false;
    };
    let Ok(bytes) = std::fs::read(rt, &own) else {
        return false;
    };
    std::fs::write(rt, name, &bytes).is_ok()
}

/// With the words `--keep FILE` this program is copied to that file; the status is then 0, or 8 where it couldn't be.
fn keep_itself(rt: &HostRuntime) -> Option<u8> {
    let Ok(words) = read_words(rt) else {
        return None;
    };
    if words.texts.len() != 2 || words.texts[0].as_str() != "--keep" {
        return None;
    }
    Some(if is_kept(rt, words.texts[1].as_str()) { 0 } else { 8 })
}
TEXT
}

# Lays out the sources of the quick program below a folder: those of the program, but that its `main` looks for the words
# `--keep FILE` first.
copy_sources() {
  mkdir -p "$1/crates" && cp "$top/HANDLES" "$1" || return
  for crate in $(list_crates); do
    grep "^${crate}[ :]" "$top/crates.txt" >>"$1/crates.txt"
    mkdir "$1/crates/$crate" && cp -R "$top/crates/$crate/src" "$1/crates/$crate" || return
  done
  main=$1/crates/qjm/src/main.rt
  { look_for_keep <"$top/crates/qjm/src/main.rt" && write_keeper; } >"$main"
}

# Changes the first lines of `main`, and brings in what the words of a process are asked by.
look_for_keep() {
  sed 's/^use std::process::ExitCode;$/&\
use std::rt::Env;/
    s/^fn main(rt: HostRuntime) -> ExitCode {$/&\
    if let Some(status) = keep_itself(\&rt) {\
        return ExitCode::from(status);\
    }/'
}

# Whether a program can be kept.
can_keep() {
  (umask 022 && mkdir -p "$quick_folder") 2>/dev/null && [ -w "$quick_folder" ]
}

# Compiles the sources and keeps the program. Fails where that can't be done, as where the folder may not be written to, where a
# source changes while it is copied, or where the program doesn't run outside of the quick run.
keep_quick() {
  can_keep || return
  make_room
  mkdir "$room/kept"
  note_sources "$room/kept/program"
  copy_sources "$room/quick" && are_noted "$room/kept/program" || return
  (cd "$room/quick/crates/qjm" && exec rt try -- --keep "$room/kept/program") </dev/null >/dev/null 2>"$room/notes" || return
  chmod +x "$room/kept/program" && does_run "$room/kept/program" && take_quick 2>/dev/null
}

# Puts the compiled program and its notes in the place of those that are kept: one of two launchers that do so at once wins, and
# nobody finds a program beside another's notes.
take_quick() {
  new=$quick_folder.$$
  cp -R "$room/kept" "$new" && rm -rf "$quick_folder" && mv -T "$new" "$quick_folder" && return
  rm -rf "$new"
  return 1
}

# Whether a program is one that answers: an empty script has a fault, which this tells.
does_run() {
  told=$("$1" play </dev/null 2>/dev/null)
  [ "$?$told" = '2error BadScript 1 1' ]
}
