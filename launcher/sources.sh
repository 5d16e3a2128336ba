# What the program is built from, and whether the one that stands there was built from it.

# The sum of the sources from which the program was built by ./qjm --build, or of which a package has it.
sources_built=$program.sources

# Lists the crates that the program stands on, and itself, a line each.
list_crates() {
  awk -F: -v wanted=qjm '
    { sub(/#.*/, ""); split($1, name, " "); uses[name[1]] = $2 }
    function take(crate,    used, count, i) {
      if (!(crate in uses) || crate in taken) return
      taken[crate] = 1
      count = split(uses[crate], used, " ")
      for (i = 1; i <= count; i++) take(used[i])
      print crate
    }
    END { take(wanted) }' "$top/crates.txt"
}

# Finds the files that the program is built from, with names from the repository's top on; the words are what `find` is to do with
# them.
find_sources() {
  places=''
  for crate in $(list_crates); do
    for part in src specs proofs; do
      [ ! -d "$top/crates/$crate/$part" ] || places="$places crates/$crate/$part"
    done
  done
  # shellcheck disable=SC2086
  (cd "$top" && find crates.txt HANDLES $places -type f "$@")
}

# Lists them.
list_sources() { find_sources | LC_ALL=C sort; }

# A sum of the sources' names and bytes.
sum_sources() {
  (list_sources | tr '\n' '\0' | (cd "$top" && xargs -0 sha256sum) | sha256sum)
}

# Lists the sources with their sizes, times and places on the disk, of which each change of a file changes one; nothing where this
# machine's `find` can't.
list_times() {
  find_sources -printf '%C@ %T@ %s %i %D %p\n' 2>/dev/null | LC_ALL=C sort
}

# Notes the sources that a program is made of: their sum as $1.sources, and their listing as $1.listing, by which they are known
# again sooner.
note_sources() {
  times=$(list_times)
  sum_sources >"$1.sources"
  note_times "$1"
}

# Notes the listing, but not where a file changed within the last seconds, since it may change once more at the same time.
note_times() {
  rm -f "$1.listing"
  [ -n "$times" ] && [ "$(printf '%s\n' "$times" | sed -n '$s/[.].*//p')" -lt $(($(date +%s) - 2)) ] || return 0
  printf '%s\n' "$times" >"$1.listing.$$" && mv "$1.listing.$$" "$1.listing"
}

# Whether the sources are those that were noted: by the listing, else by the sum, and then the listing is made anew.
are_noted() {
  [ -f "$1.sources" ] || return
  times=$(list_times)
  [ -z "$times" ] || [ ! -f "$1.listing" ] || [ "$times" != "$(cat "$1.listing")" ] || return 0
  [ "$(cat "$1.sources")" = "$(sum_sources)" ] || return
  note_times "$1" 2>/dev/null
  return 0
}

# Takes the program away, with what is noted of it.
forget_program() {
  rm -f "$program" "$program.by-rattle" "$sources_built" "$program.listing" "$program.record"
}

# Whether the program stands there that rt ci made of these sources: beside the one by its second compiler, and newer than all.
is_built_by_ci() {
  [ ! -f "$sources_built" ] && [ -x "$program.by-rattle" ] && [ -z "$(find_sources -newer "$program")" ]
}

# Whether the proved program stands there: that of an installation, or that of these sources.
is_proved() {
  [ -x "$program" ] && { is_installed || { are_noted "$program" && is_recorded; } || is_built_by_ci; }
}
