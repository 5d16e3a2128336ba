# Proving and building the program.

build_log=$top/crates/qjm/out/build.log

# Stops where the kit isn't there, since nothing can be proved, built or tried without it.
require_kit() {
  command -v rt >/dev/null && return
  say "the Rattle kit's command rt isn't on the PATH; it proves, builds and tries the sources"
  exit "$NO_KIT"
}

# How many crates are proved side by side, as the kit does it: one a processor, with 3 GB of free memory each.
count_jobs() {
  processors=$(getconf _NPROCESSORS_ONLN 2>/dev/null || echo 1)
  memory=$(awk '/^MemAvailable:/ { print int($2 / 3145728) }' /proc/meminfo 2>/dev/null)
  jobs=${memory:-1}
  [ "$jobs" -le "$processors" ] || jobs=$processors
  [ "$jobs" -ge 1 ] || jobs=1
  echo "$jobs"
}

# How long a build takes, foretold by what one took on a machine of four processors: two hours of one processor, and no less than
# the longest chain of crates that stand on one another.
foretell_build() {
  minutes=$((120 / $(count_jobs)))
  [ "$minutes" -ge 25 ] || minutes=25
  echo "some $minutes minutes on this machine"
}

# Lays out in an empty folder what the program is built from, and what it is run on once it is, as a repository of its own: it has
# no crate of tests and no must-fail edit. What rt ci passes there counts for rt ci here, and the other way round, since the kit
# keeps both by the sums of what they read.
lay_out_sources() {
  # (the kit takes the folder that has one for a repository's top)
  mkdir "$1/.git"
  (cd "$top" && list_sources | sed "s|^$top/||" | tr '\n' '\0' | xargs -0 cp --parents -t "$1") || return
  for file in args stdin stdout; do
    [ ! -f "$top/crates/qjm/$file" ] || cp "$top/crates/qjm/$file" "$1/crates/qjm" || return
  done
  list_crates | awk 'NR == FNR { wanted[$1]; next } { split($0, name, /[: ]/) } name[1] in wanted' - "$top/crates.txt" >"$1/crates.txt"
}

# Says how far the build is: on a terminal in one line that is written anew, else in a line for each crate.
show_progress() {
  minutes=$((($(date +%s) - build_began) / 60))
  text="qjm: $1, $minutes min"
  if [ -t 2 ]; then
    printf '\r%-90s' "$text" >&2
  elif [ "$text" != "$shown" ] && [ "$1" != "$shown_step" ]; then
    printf '%s\n' "$text" >&2
  fi
  shown=$text shown_step=$1
}

# How many crates are proved, and which was the last: the prover's log names each one that is done, or that an earlier run did.
tell_step() {
  awk -v all="$crate_count" '
    /^rt: [a-z0-9_]+ (proved$|is kept: )/ { done++; name = $2 }
    END {
      if (done == all) printf "%d of %d crates proved; the program is built", done, all
      else printf "%d of %d crates proved%s, %d left", done, all, done ? " (" name " last)" : "", all - done
    }' "$build_log"
}

# Proves and builds in the folder where the sources are laid out, shows how far it is until it ends, and returns its status.
run_kit() {
  (cd "$1" && exec rt ci) </dev/null >>"$build_log" 2>&1 &
  prover=$!
  trap 'kill "$prover" 2>/dev/null; exit 130' INT TERM HUP
  while kill -0 "$prover" 2>/dev/null; do
    show_progress "$(tell_step)"
    sleep 2
  done
  trap 'exit 130' INT
  trap 'exit 143' TERM HUP
  wait "$prover" && show_progress "$(tell_step)"
}

# Says that the build failed, with the crates that did, and where what the prover said stands.
tell_failure() {
  say "not built; the prover's output stands in $build_log:"
  grep -E '^rt: ([a-z0-9_]+ NOT PROVED|FAILED: )' "$build_log" >&2 || tail -n 5 "$build_log" >&2
}

# Proves and builds the program, where it isn't there. Ends with status 0, or with that of a program that isn't built.
build() {
  if is_proved; then
    say "the proved program of these sources is there: $program"
    return 0
  fi
  require_kit
  mkdir -p "$top/crates/qjm/out"
  forget_program
  build_began=$(date +%s) crate_count=$(list_crates | wc -l) shown='' shown_step=''
  sum=$(sum_sources)
  tree=$top/crates/qjm/out/tree
  trap 'rm -rf "$tree"' EXIT
  rm -rf "$tree" && mkdir "$tree" && lay_out_sources "$tree" || {
    say "not built: the sources couldn't be copied to $tree"
    return "$NOT_BUILT"
  }
  say "first $((crate_count)) crates are proved, $(count_jobs) at a time, in any order but that each waits for those that it stands on"
  say "then the program is built, in a minute or two; all in all $(foretell_build)"
  say "what the prover says goes to $build_log; stopped and begun again, the build goes on where it was"
  : >"$build_log"
  run_kit "$tree" && cp "$tree/crates/qjm/out/qjm" "$program"
  [ ! -t 2 ] || printf '\n' >&2
  if [ ! -x "$program" ]; then
    tell_failure
    return "$NOT_BUILT"
  fi
  note_sources "$program"
  if [ "$(cat "$sources_built")" != "$sum" ]; then
    forget_program
    say "not built: the sources changed meanwhile"
    return "$NOT_BUILT"
  fi
  write_record "$(rt version)" >"$program.record"
  say "proved and built in $((($(date +%s) - build_began) / 60)) minutes"
}
