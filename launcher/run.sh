# Running the program: the proved one, or a quick run of the same sources.

# The most bytes of a script, and one more: of these the program knows that a script is too long.
readonly INPUT_KEPT=1048577

# By which name what the program reads can be read once more, so that its lines can be shown, and which file has what it wrote;
# empty where nothing is kept.
again='' output=''

# Opens what the program is to read as descriptor 3. A script that stands in no file is kept in one first.
open_input() {
  case $1 in
    play | run | piped | mirror | boot | node | judge | states) exec 3<&0 ;;
    *) exec 3</dev/null; return ;;
  esac
  if is_input_a_file; then
    again=/dev/fd/3
  elif ! is_among "$1" "node $REPORT_COMMANDS" && [ ! -d /dev/stdin ]; then
    keep_input
  fi
}

# Whether the standard input is a file of which nothing was read yet.
is_input_a_file() {
  [ -f /dev/stdin ] && [ -r /dev/stdin ] && [ "$(sed -n 's/^pos:[^0-9]*//p' /proc/self/fdinfo/0 2>/dev/null)" = 0 ]
}

# Keeps the standard input as descriptor 3. Where reading fails the program is to see that itself.
keep_input() {
  make_room
  why=$(LC_ALL=C head -c "$INPUT_KEPT" 2>&1 >"$room/input")
  case $?$why in
    0*) again=$room/input; exec 3<"$again" ;;
    *reading*) ;;
    *) refuse_room "$why" ;;
  esac
}

# Opens what the program read once more, from its beginning.
open_input_again() {
  [ -z "$again" ] || exec 3<"$again"
}

# By which command the launcher's own process starts the program, so that it dies with the launcher, however that ends: setpriv,
# where the machine's can say so.
guard=''

find_guard() {
  guard='setpriv --pdeathsig KILL'
  $guard true 2>/dev/null || guard=''
}

# Runs the proved program on descriptor 3, passes signals on, and keeps its status.
run_program() {
  # a limit of a file's size is then a write that fails, and no signal that ends the program
  trap '' XFSZ
  find_guard
  # shellcheck disable=SC2086
  $guard "$program" "$@" <&3 3<&- &
  child=$!
  trap 'kill "$child" 2>/dev/null' INT TERM HUP
  wait "$child"
  status=$?
  # (a signal ends the wait, and the program may go on)
  while kill -0 "$child" 2>/dev/null; do
    wait "$child"
    status=$?
  done
}

# A file's name as a quick run finds it, which runs in a folder of its own.
name_from_root() {
  case $1 in
    '' | /*) printf '%s' "$1" ;;
    *) printf '%s/%s' "$(pwd)" "$1" ;;
  esac
}

# Runs the sources without a proof on descriptor 3. Fails where that gave no answer of the program's own.
try_sources() {
  case $#$1 in
    3oev | 3oiv) set -- "$1" "$2" "$(name_from_root "$3")" ;;
    4oiv) set -- "$1" "$2" "$(name_from_root "$3")" "$4" ;;
    5oev) set -- "$1" "$2" "$(name_from_root "$3")" "$4" "$5" ;;
  esac
  make_room
  output=$room/output
  (cd "$top/crates/qjm" && exec rt try -- "$@") <&3 >"$output" 2>"$room/notes"
  status=$?
  grep -q "^run=ended status=$status " "$room/notes"
}

# Answers by a quick run. What is out of its reach, as a report above 1 MiB, wants the proved program.
try_or_refuse() {
  require_kit
  if try_sources "$@"; then
    [ "$status" -ne 7 ] || require_room
    cat "$output" 2>/dev/null || status=7
    return
  fi
  require_room
  tell_notes
  refuse_unbuilt "the proved program has no such limits"
}

# Says what the kit said of a quick run that gave no answer.
tell_notes() {
  say "the quick run gave no answer; it said:"
  grep '^checked: ' "$room/notes" >&2 || tail -n 3 "$room/notes" >&2
}

# Ends the launcher where a command wants the proved program and that isn't built: a build is begun by nothing but its own word.
refuse_unbuilt() {
  say "$1, and it isn't built yet"
  say "\`./qjm --build\` proves and builds it, once, in $(foretell_build); \`./qjm --use FILE\` takes it out of a package"
  exit "$NOT_BUILT"
}

# Chooses the program that answers: the proved one, else the quick one, which is compiled where it isn't kept. Each answer of the
# quick one says what it is. Fails where it can't be kept.
choose_program() {
  ! is_proved || return 0
  if is_quick_kept; then
    say "answered by the sources, compiled without a proof: \`./qjm --build\` makes the proved program"
  else
    require_kit
    say "the sources are compiled without a proof, in a minute or two$(! can_keep || echo ', and kept until they change')" \
      "(./qjm --build makes the proved program)"
    keep_quick || return
  fi
  program=$quick_program
  # (a quick run has no environment, and the program's checks read these)
  unset ASAN_OPTIONS LSAN_OPTIONS
}

# Says, where the quick program stopped by one of its checks, what that means.
tell_fault_of_sources() {
  [ "$program" != "${quick_program-}" ] || is_among "$status" '0 1 2 3 4 5 6 7 8 9 75 129 130 137 143' ||
    say "the quick program stopped with status $status: a fault of the sources, which \`rt try -- $*\` in crates/qjm tells," \
      "or a limit of the address space (ulimit -v), under which its checks can't work"
}

# Runs the program's command, explains a status that isn't 0, and ends with the status.
run_or_try() {
  case $1 in
    play | run | piped | mirror | boot) greet_terminal 'a script' ;;
    judge | states) greet_terminal 'a report' ;;
  esac
  open_input "${1-}"
  if choose_program; then
    run_program "$@"
    tell_fault_of_sources "$@"
  else
    try_or_refuse "$@"
  fi
  [ "$status" -eq 0 ] || explain "$@"
  exit "$status"
}

# Serves a node in the current folder, of the proved program alone, once the folder was checked.
serve_node() {
  is_proved || refuse_unbuilt "a node runs of the proved program alone"
  [ "$unchecked" = yes ] || check_before_serving
  is_taken || tell_fresh
  greet_terminal 'requests, a line each,'
  open_input node
  run_program node
  [ "$status" -eq 0 ] || explain node
  exit "$status"
}

# Serves a node to its clients, once the folder was checked as for `node`, or is a name node, of the proved program alone.
run_in_cluster() {
  is_proved || refuse_unbuilt "a cluster runs of the proved program alone"
  if [ "$1" = serve ]; then
    check_before_serving
    is_taken || tell_fresh
  fi
  open_input node
  run_program "$@"
  # (it isn't asked once more for its fault line, which stands in its output)
  output=/dev/null
  [ "$status" -eq 0 ] || explain "$@"
  exit "$status"
}

# Checks the current folder, of the proved program or of the one that is kept: a quick run sees no folder but its own.
check_folder() {
  if ! choose_program; then
    [ ! -s "$room/notes" ] || tell_notes
    refuse_unbuilt "a folder is checked by a program that is kept, and the quick one couldn't be"
  fi
  find_findings
  tell_fault_of_sources fsck
  [ -z "$shown" ] || printf '%s\n' "$shown" | cat 2>/dev/null || status=7
  tell_check
  exit "$status"
}

# Says the findings in words. Those of the launcher's own, which the program doesn't see, are findings too.
tell_check() {
  ! is_taken || say "a node has this folder: its files may have changed while they were checked"
  tell_findings
  is_complete || tell_lost_findings
  case $status in
    0 | 5) [ "$told" = 0 ] || status=5 ;;
    *) explain fsck ;;
  esac
}
