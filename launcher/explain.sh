# What an error means, in plain words. Each sentence stands in a table of docs/FORMATS.md, and nowhere else.

# The rows of a table, by their first cells or, with a fourth word, by all; with a key, the other cells of its row.
look_up() {
  awk -v table="$1" -v key="${2-}" -v wide="${3-}" -v whole="${4-}" -f "$top/launcher/table.awk" "$top/docs/FORMATS.md"
}

# One of the cells behind a row's key.
cell() {
  look_up "$1" "$2" | sed -n "$3p"
}

# Says each line of the standard input, a long one in several.
say_lines() {
  sed '/^$/d' | fold -s -w 110 | sed 's/ $//' | while IFS= read -r sentence; do
    say "$sentence"
  done
}

# Lists the rules of scripts, of request lines and of folders, and the refusals of a node.
show_rules() {
  echo "A line of a script breaks rule (tested in this order)"
  look_up "rules of play"
  echo
  echo "A request line of a node breaks rule"
  look_up "rules of node"
  echo
  echo "A request that a node answers \`refused NUMBER NAME ..\` is refused, where several fit by the first in the order of" \
    "docs/MODEL.md"
  look_up refusals '' 4 whole
  echo
  echo "A line of a report breaks rule"
  look_up "rules of judge"
  echo
  echo "A file of a folder has the finding (V1 and V2 are the two numbers of its line)"
  look_up "rules of fsck" '' 22
  echo
  echo "A damaged file has, from the told byte on, the cause"
  look_up causes '' 15 | sed '/^ *other/d; /^ *no edit/d; s/ *$//'
  echo
  echo "docs/FORMATS.md has the lines themselves, and what to do about each finding."
}

# Shows a line of the input behind the one before it, with a mark.
show_line() {
  LC_ALL=C awk -v line="$1" '
    NR < line - 1 { next }
    NR > line { exit }
    { gsub(/[^ -~]/, "?"); if (length($0) > 120) $0 = substr($0, 1, 120) " .." }
    { printf "%s %6d | %s\n", (NR == line ? ">" : " "), NR, $0 }' <"$again" >&2
}

# Writes the fault line of this run where it tells more than the status. Where it wasn't kept the program is asked once more, and
# changes nothing: a refused folder stays as it is. A report that came through a pipe is gone, so nothing is asked of it. It is the
# last that a process of the launcher's own does, which becomes the program.
# shellcheck disable=SC2086
find_fault() {
  if [ -n "$output" ]; then
    cat "$output"
  elif [ "$status" -gt 4 ] || { is_among "$1" "$REPORT_COMMANDS" && [ -z "$again" ]; }; then
    return
  elif [ "$*" != node ]; then
    open_input_again
    exec $guard "$program" "$@" <&3
  elif [ "$status" -eq 3 ]; then
    exec $guard "$program" node </dev/null
  elif [ "$status" -eq 2 ]; then
    find_bad_request
  fi
}

# The fault line of a node's requests, where they are a file that isn't longer than a script may be: which line is no request
# doesn't depend on the node, so a fresh one in a folder of its own is asked.
find_bad_request() {
  [ -n "$again" ] && [ "$(wc -c <"$again")" -lt "$INPUT_KEPT" ] || return
  make_room
  # shellcheck disable=SC2086
  (cd "$room" && $guard "$program" node <"$again" | tail -n 1)
}

# Whether the input's last byte is no line feed.
lacks_end() {
  [ "$(tail -c 1 <"$again" | od -An -tx1 | tr -d ' ')" != 0a ]
}

# What is wrong with a line of the input, with its column, as far as that can be told of the line and those before it.
tell_cause() {
  ! lacks_end || set -- "$1" "$2" "$3" yes
  LC_ALL=C awk -v line="$1" -v rule="$2" -v kind="$3" -v lacks_end="${4-}" -f "$top/launcher/line.awk" <"$again"
}

# The command whose rules a command's lines are to keep.
rules_of() {
  if is_among "$1" "$REPORT_COMMANDS"; then
    echo judge
  elif [ "$1" = node ]; then
    echo node
  else
    echo play
  fi
}

# Says what is wrong with a line: the one cause where it is seen, else all that breaks the rule, as of each line of a report.
explain_line() {
  cause=''
  is_among "$command" "$REPORT_COMMANDS" || cause=$(tell_cause "$1" "$2" "$command")
  if [ -n "$cause" ]; then
    printf '%s\n' "line $1, $cause (rule $2)" | say_lines
  else
    look_up "rules of $(rules_of "$command")" "$2" | sed "s/^/line $1 breaks rule $2: /" | say_lines
  fi
  [ -z "$again" ] || show_line "$1"
}

# Says what may be wrong with a request line that isn't seen here: all rules, and what a request looks like.
explain_requests() {
  say "the last line that was written tells which line, and by which RULE: \`error BadScript LINE RULE\`"
  look_up "rules of node" '' 1 | sed 's/^\([0-9]*\)  /RULE \1: /' | say_lines
  look_up requests '' 1 | sed 's/^[^ ]*  //' |
    awk '{ forms = forms (NR > 1 ? "; " : "") $0 } END { print "a request is one of: " forms }' | say_lines
}

# Of what a damage is: the row of a cause that has one for each.
row_of_cause() {
  case $1$command in
    Shortoiv | Orderoiv | Trailingoiv | Fieldoiv) echo "$1, image" ;;
    Shortoev) [ "$(byte_at "$2" "$3")" = a5 ] && echo 'Short, frame' || echo 'Short, edit' ;;
    Orderoev) echo 'Order, frame' ;;
    Trailingoev | Fieldoev) echo "$1, edit" ;;
    *) echo "$1" ;;
  esac
}

# What is wrong at a place of a segment's file, as far as its bytes from there on show it.
see_damage() {
  [ "$command" = oev ] && [ "$3" -ge 2 ] || return 0
  od -An -v -tu1 -j $(($3 - 2)) -N 70000 -- "$2" 2>/dev/null |
    awk -v cause="$1" -v left=$(($(wc -c <"$2") - $3)) -f "$top/launcher/edits.awk" -f "$top/launcher/damage.awk"
}

# Says what a listing has that becomes no segment, as far as its text shows it, of a bad member with the member itself, and what
# to do about it.
explain_listing() {
  seen=$(LC_ALL=C awk -v cause="$2" -v place="$1" -v txid=$((asked_start + $1)) -f "$top/launcher/edits.awk" \
    -f "$top/launcher/listing.awk" <"$3" 2>/dev/null)
  words=$(printf '%s\n' "$seen" | sed -n 1p)
  words=${words:-$(cell causes "$2" 1)}
  case $2 in
    Json) printf '%s, %s\n' "$3" "$words" | say_lines ;;
    *)
      printf '%s, member %s: %s\n' "$3" "$1" "$words" | say_lines
      printf '> %6d | %s\n' "$1" "$(printf '%s\n' "$seen" | sed -n 2p)" >&2
      ;;
  esac
  tell_advice causes "$2" 2
}

# A byte of a file in hexadecimal digits.
byte_at() {
  od -An -v -tx1 -j "$2" -N 1 -- "$1" 2>/dev/null | tr -d ' '
}

# A file's name as it is typed: in quotes where a shell takes one of its characters for its own.
as_typed() {
  case $1 in
    *[!A-Za-z0-9_./=,:@%+-]*) printf "'%s'" "$(printf '%s\n' "$1" | sed "s/'/'\\\\''/g")" ;;
    *) printf '%s' "$1" ;;
  esac
}

# Says what a file that was to be listed has, and what to do about it.
explain_damage() {
  case $2 in
    NoFile) explain_absence "$3"; return ;;
    NoPath) explain_missing_path "$3"; return ;;
    Json | Entry) explain_listing "$1" "$2" "$3"; return ;;
  esac
  if [ "$command" = oiv ] && is_segment "$3"; then
    say "$3 is a segment: use oev, as \`./qjm oev list $(as_typed "$3")\`"
  elif [ "$command" = oev ] && is_image "$3"; then
    say "$3 is an image: use oiv, as \`./qjm oiv delimited $(as_typed "$3")\`"
  else
    row=$(row_of_cause "$2" "$3" "$1")
    words=$(see_damage "$2" "$3" "$1")
    printf '%s, byte %s: %s\n' "$3" "$1" "${words:-$(cell causes "$row" 1)}" | say_lines
    advise_damage "$row" "$3"
  fi
}

# Says that an image has nothing at a path, and what to do.
explain_missing_path() {
  say "$1 has nothing at $asked_path: $(cell causes NoPath 1)"
  tell_advice causes NoPath 2
}

# Says why there is no file to be listed.
explain_absence() {
  if [ -d "$1" ]; then
    say "$1 is a folder: name one of the files in it"
  else
    reason=$(why_unreadable "$1")
    say "${reason:-$(cell causes NoFile 1)}"
    cell causes NoFile 2 | say_lines
  fi
}

# Says what to do about a file with a damage, by the kind of file that its name tells. Bytes that are no edit are no damage of a
# segment's file.
advise_damage() {
  case $1,$(kind_of_name "${2##*/}") in
    Opcode,* | *', edit,'*)
      printf '%s %s\n' "$2" "$(cell causes 'no edit' 1)" | say_lines
      tell_advice causes 'no edit' 2
      ;;
    *,final) tell_advice 'rules of fsck' 2 2 ;;
    *,'in progress') tell_advice 'rules of fsck' '2, in progress' 2 ;;
    *,image) tell_advice 'rules of fsck' 10 2 ;;
    *) cell causes other 2 | say_lines ;;
  esac
}

# Says why the program refused a folder: by the check's finding of that file, or where it has none by what opening alone tells.
explain_refusal() {
  find_findings
  findings=$(printf '%s\n' "$findings" | LC_ALL=C grep -a -F -e "bad $1 ")
  if [ -n "$findings" ]; then
    tell_findings
  else
    printf '%s: %s\n' "$1" "$(cell causes BadFile 1)" | say_lines
    tell_advice causes BadFile 2
  fi
  status=3
}

# Says what the parts of a fault line mean: its line and rule, or its limit.
explain_fault() {
  case ${2-} in
    BadScript | BadReport) explain_line "$3" "$4" ;;
    Limit) look_up limits "$3" | say_lines ;;
    '') [ "$status$command" != 2node ] || explain_requests ;;
  esac
}

# Says what a file has that isn't what it has to be: one that was to be listed, or one for which a folder was refused.
explain_bad_file() {
  if [ "$4" = BadFile ]; then
    explain_refusal "$5"
  else
    explain_damage "$3" "$4" "$asked_file"
  fi
}

# Says what the status means, what its fault line says, and what to do. Where a reader went away nothing is said.
explain() {
  command=${1-} asked_file=${3-} asked_start=${4-} asked_path=${4-}
  [ "$status" -ne 7 ] || ! is_output_a_pipe || return 0
  fault=$(find_fault "$@" 2>/dev/null)
  case $fault in error\ *) ;; *) fault='' ;; esac
  # shellcheck disable=SC2086
  case $fault in
    error\ BadBytes\ *) explain_bad_file $fault ;;
    *)
      meaning=$status
      [ "$status" -ne 5 ] || ! is_among "$command" "$REPORT_COMMANDS" || meaning='5, judge'
      cell statuses "$meaning" 1 | say_lines
      explain_fault $fault
      tell_reason "$@"
      # (a listing or a check keeps nothing, and is just begun again; where the folder is gone all is)
      [ "$status" -ne 8 ] || { [ "$command" = node ] && ! is_removed; } || return 0
      cell statuses "$meaning" 2 | say_lines
      ;;
  esac
}

# Says the system's reason, where the launcher sees it, or where to look for it.
tell_reason() {
  reason=$(reason_of "$status" "$@")
  [ -n "$reason" ] || reason=$(cell statuses "$status, unseen" 1)
  printf '%s\n' "$reason" | say_lines
}
