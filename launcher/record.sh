# The record of the proved program: by what it was proved, of which sources it was built, and by whom. Each line is a key and what
# it tells. In an installation it stands beside the launcher, and no sources do; in a clone it stands beside the program.

record=$top/record
[ -f "$record" ] || record=$program.record

# Whether this is an installation.
is_installed() { [ "$record" = "$top/record" ]; }

# What a record tells behind a key: FILE KEY.
told_in() {
  sed -n "s/^$2 //p" "$1" | head -n 1
}

# A file's sum.
sum_of() {
  sha256sum <"$1" | cut -d ' ' -f 1
}

# The sum of the sources, alone.
sum_alone() {
  sum_sources | cut -d ' ' -f 1
}

# By what the program was proved: as its record has it, or by this machine's kit, by which rt ci made it.
kit_of_program() {
  if [ -f "$record" ]; then told_in "$record" 'proved with'; else rt version; fi
}

# The newest version of the C library's symbols that the program wants.
libc_wanted() {
  LC_ALL=C grep -a -o 'GLIBC_[0-9][0-9.]*' "$program" | sed 's/GLIBC_//' | sort -u -t . -k 1,1n -k 2,2n -k 3,3n | tail -n 1
}

# The commit that is checked out, where there is git, and whether files differ from it.
name_commit() {
  commit=$(git -C "$top" rev-parse HEAD 2>/dev/null) || return 0
  [ -z "$(git -C "$top" status --porcelain --untracked-files=no 2>/dev/null)" ] || commit="$commit, changed since"
  echo "commit $commit"
}

# Writes the record of the program of these sources, which the kit $1 proved.
write_record() {
  printf 'qjm %s\nproved with %s\n' "$VERSION" "$1"
  printf 'crates %d\nsources %s\n' "$(list_crates | wc -l)" "$(sum_alone)"
  name_commit
  printf 'program %s\n' "$(sum_of "$program")"
  printf 'system linux x86-64, glibc %s\n' "$(libc_wanted)"
  sed -n 's/^Maintainer: /maker /p' "$top/packaging/control"
}

# Shows the record, or that the program isn't built.
show_version() {
  if ! is_proved; then
    printf 'qjm %s\nnot built yet: ./qjm --build proves and builds it\n' "$VERSION"
  elif [ -f "$record" ]; then
    cat "$record"
  else
    write_record "$(kit_of_program)"
  fi
}

# Whether the program is the one of the record beside it, where there is one: rt may have made another since.
is_recorded() {
  [ -f "$record" ] || return 0
  found=$(sha256sum <"$program")
  case $(cat "$record") in *"program ${found%% *}"*) ;; *) return 1 ;; esac
}

# Shows the record, and compares the program and, in a clone, the sources with it by their sums.
check_version() {
  show_version
  if [ ! -x "$program" ]; then
    return "$NOT_BUILT"
  elif [ ! -f "$record" ]; then
    say "not checked: rt ci made this program, and recorded no sum of it"
    return 5
  fi
  status=0
  compare_sums "the program $program" "$(sum_of "$program")" "$(told_in "$record" program)"
  is_installed || compare_sums 'the sources' "$(sum_alone)" "$(told_in "$record" sources)"
  return "$status"
}

# Says whether something has the sum that the record has of it.
compare_sums() {
  if [ "$2" = "$3" ]; then
    say "checked: $1: as recorded"
  else
    say "$1: not as recorded; the sum is $2, and the record has $3"
    status=5
  fi
}
