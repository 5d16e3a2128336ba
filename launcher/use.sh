# Taking the proved program out of a package that was made of the same sources elsewhere.

# Writes the members of a package that end in lib/qjm/$2, below the folder $3.
unpack() {
  case $1 in
    *.deb) dpkg-deb --fsys-tarfile "$1" | tar -xf - -C "$3" "./usr/lib/qjm/$2" --strip-components 4 ;;
    *) tar -xzf "$1" -C "$3" --wildcards "*/lib/qjm/$2" --strip-components 3 ;;
  esac 2>>"$room/notes"
}

# Takes the program and its record out of the package into the room. Ends the launcher where that is no package of qjm, or one whose
# program isn't the one of its record.
open_package() {
  if [ ! -f "$1" ] || [ ! -r "$1" ]; then
    say "there is no file $1 here that can be read"
    exit 6
  fi
  make_room
  if ! unpack "$1" program "$room" || ! unpack "$1" record "$room"; then
    say "$1 is no package of qjm: $(tail -n 1 "$room/notes")"
    exit 3
  elif [ "$(sum_of "$room/program")" != "$(told_in "$room/record" program)" ]; then
    say "$1 is damaged: its program isn't the one that its record has"
    exit 3
  fi
}

# Uses the proved program of a package here, where it was made of these sources.
use_package() {
  if is_proved; then
    say "the proved program of these sources is there: $program"
    return 0
  fi
  open_package "$1"
  ours=$(sum_alone) theirs=$(told_in "$room/record" sources)
  if [ "$ours" != "$theirs" ]; then
    say "$1 was made of other sources, so it isn't used: their sum is $theirs,"
    say "and that of the sources here is $ours"
    return "$NOT_BUILT"
  fi
  take_program "$1" || { say "the program couldn't be written to ${program%/*}"; return 8; }
  say "the program of $1 is used: it was proved elsewhere, so its record's word is all that is known here of that"
  say "the record says: proved with $(told_in "$record" 'proved with'), of these sources, by $(told_in "$record" maker)"
}

# Puts the program into its place, with its record, which says from then on where it came from, and the note of its sources.
take_program() {
  mkdir -p "${program%/*}" && forget_program || return
  printf 'taken from %s, proved elsewhere\n' "${1##*/}" >>"$room/record"
  cp "$room/record" "$program.record" && cp "$room/program" "$program" && chmod 755 "$program" && note_sources "$program"
}

# Whether the program was taken so.
is_taken_from_package() {
  [ -f "$record" ] && [ -n "$(told_in "$record" 'taken from')" ]
}
