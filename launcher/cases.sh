# Cases: lines of text that small programs read and answer. Each answer is compared with the one that is kept. A case is run here
# without a proof; rt ci runs the same cases by the proved programs.

# Runs a program's cases by a quick run, into the room's file of its name. Fails where that gave no answer of its own.
answer_cases() {
  set -- "$1" "$top/crates/$1"
  data=$(cd "$2/data" && find . -type f | sed 's|^\./\(.*\)|--data \1=data/\1|')
  # shellcheck disable=SC2046,SC2086
  (cd "$2" && exec rt try --seconds 600 $data -- $(cat args)) </dev/null >"$room/$1" 2>"$room/notes"
  grep -q '^run=ended status=0 ' "$room/notes" && return
  require_room
  say "$1 gave no answers; the quick run said:"
  tail -n 5 "$room/notes" >&2
  return 1
}

# Names the cases of a program whose answers differ from those that are kept, with both, and counts all that have the word.
compare_cases() {
  awk -v program="$1" -v word="$2" -f "$top/launcher/cases.awk" "$top/crates/$1/stdout" "$room/$1"
}

# Whether a program has a case with this word in its name, its subject or the program's own.
has_case() {
  case $1 in *"$2"*) return ;; esac
  (cd "$top/crates/$1/data" && { ls | grep -q -e "$2" || grep -q -e "^case .*$2" -- *.cases; })
}

# Runs the cases of all programs, or those with a word.
test_cases() {
  require_kit
  make_room
  differ=0
  for program in known_texts known_runs; do
    has_case "$program" "${1-}" || continue
    say "$program: a quick run of the sources, not of the proved program"
    answer_cases "$program" && compare_cases "$program" "${1-}" || differ=1
  done
  return "$differ"
}
