# Tests the quick program that is kept, packages, what an installation does, and the proved program out of a package. launcher/test
# reads it, and has what it calls.

# The quick program is compiled once, and kept until the sources change. Each of its answers says what it is.
test_kept() {
  make_tree
  rm -f "$room/tries"
  ask 'hello\n' play
  expect_run 'a quick program' 'kept hello' 0
  expect_said 'a quick program' 'compiled without a proof'
  expect 'lines said of a quick program' "$(wc -l <"$room/err" | tr -d ' ')" 1
  ask 'hello\n' run
  expect_run 'a kept program' 'kept hello' 0
  expect 'what is said of a kept program' "$(cat "$room/err")" \
    'qjm: answered by the sources, compiled without a proof: `./qjm --build` makes the proved program'
  sleep 3
  for _ in 1 2; do
    ask 'hello\n' play
    expect_run 'a kept program known by its times' 'kept hello' 0
  done
  expect 'quick runs' "$(wc -l <"$room/tries" | tr -d ' ')" 1
  [ -f "$room/tree/crates/qjm/out/quick/program.listing" ] || expect 'the listing' absent there
  printf 'wol' | dd of="$room/tree/crates/low/src/lib.rt" conv=notrunc 2>/dev/null
  ask 'hello\n' play
  expect_run 'a changed source' 'kept hello' 0
  expect 'quick runs after a change' "$(wc -l <"$room/tries" | tr -d ' ')" 2
  expect 'what a kept program leaves beside it' "$(ls "$room/tree/crates/qjm/out")" quick
  touch "$room/tree/crates/low/src/lib.rt"
  test_kept_commands
  replace find 'case " $* " in *" -printf "*) exit 1 ;; esac'
  ask 'hello\n' play
  expect_run 'a kept program where no times are listed' 'kept hello' 0
  rm "$room/bin/find"
  expect 'quick runs after a touch' "$(wc -l <"$room/tries" | tr -d ' ')" 2
}

# What the kept program answers, and what it doesn't.
test_kept_commands() {
  echo edits >"$room/jn1/file"
  qjm oev list file
  expect_run 'a listing by the kept program' 'kept list edits' 0
  printf 'bad last-writer-epoch 8 2 1\nfindings 1\n' >"$room/found"
  qjm fsck
  expect_run 'a check by the kept program' "$(cat "$room/found")" 5
  expect_said 'a check by the kept program' 'last-writer-epoch (rule 8): it holds 2'
  expect_said 'a check by the kept program' 'answered by the sources'
  rm "$room/found"
  ask 'raw 3\nbad line\n' play
  expect_run 'a bad script to the kept program' 'error BadScript 2 5' 2
  expect_said 'a bad script to the kept program' '>      2 | bad line'
  ask 'status 134\n' play
  expect_said 'a fault of the sources' 'stopped with status 134'
  for words in node 'serve 1' 'lead 1'; do
    # shellcheck disable=SC2086
    qjm $words </dev/null
    expect "the status of $words without the proved program" "$status" 70
  done
}

# The words by which the quick program looks for `--keep FILE` fit the program's own main.
test_keeper_in_main() {
  (program=$top/none && . "$top/launcher/quick.sh" && look_for_keep <"$top/crates/qjm/src/main.rt") >"$room/main"
  expect 'the lines that look for --keep in main.rt' "$(grep -c 'keep_itself(&rt)' "$room/main")" 1
  expect 'what it brings in' "$(grep -c '^use std::rt::Env;$' "$room/main")" 1
  for word in 'rt: HostRuntime' read_words; do
    grep -q "$word" "$top/crates/qjm/src/main.rt" || expect "main.rt has $word" no yes
  done
}

# The licences of the kit's libraries, where the kit has them.
make_licences() {
  for library in $(top=$room/tree && . "$room/tree/launcher/package.sh" && list_noticed); do
    mkdir -p "$room/rattle/$library"
    echo "the licence of $library" >"$room/rattle/$library/LICENSE"
  done
}

# Makes the packages in the folder $1.
make_packages() {
  mkdir -p "$1"
  qjm --package "$1"
  expect 'the status of a package' "$status" 0
}

# An installation, which finds no kit.
installed() {
  (cd "$room/jn1" && PATH=/usr/bin:/bin "$room/installed/bin/qjm" "$@") >"$room/out" 2>"$room/err"
  status=$?
}

# An installation has the proved program alone, and runs where no kit is.
test_package() {
  make_tree
  cp -r "$top/docs" "$top/draw" "$top/README.md" "$top/LICENSE" "$top/NOTICE" "$room/tree"
  cp -rL "$top/examples" "$room/tree"
  make_tale
  qjm --package "$room"
  expect 'the status of a package before a build' "$status" 70
  qjm --build
  qjm --package "$room/nowhere"
  expect 'the status of a package in no folder' "$status" 6
  qjm --package "$room"
  expect 'the status of a package by a kit without licences' "$status" 69
  make_licences
  replace install 'case $* in *FORMATS*|*program*) echo "install: no space" >&2; exit 1 ;; esac'
  qjm --package "$room"
  expect 'the status of a package without room' "$status" 73
  rm "$room/bin/install"
  make_packages "$room/one"
  (umask 077 && LC_ALL=C.UTF-8 TZ=Asia/Tokyo make_packages "$room/two")
  for file in "$room"/one/*; do
    cmp -s "$file" "$room/two/${file##*/}" || expect "two packages ${file##*/}" differ 'the same bytes'
  done
  mkdir "$room/installed" && tar xzf "$room"/one/qjm-*.tar.gz -C "$room/installed" --strip-components 1 || return
  test_installed
  test_record
  ! command -v dpkg-deb >/dev/null || test_use "$(ls "$room"/one/*.deb)"
  test_use "$(ls "$room"/one/*.tar.gz)"
}

test_installed() {
  installed play <<'TEXT'
hello
TEXT
  expect_run 'an installation' 'proved hello' 0
  expect_silence 'an installation'
  for words in --build --package '--use x' test; do
    # shellcheck disable=SC2086
    installed $words
    expect "the status of $words in an installation" "$status" 69
    expect_said "$words in an installation" 'wants a clone of the sources'
  done
  installed help
  grep -q '^  qjm play ' "$room/out" || expect 'the help of an installation' "$(cat "$room/out")" 'qjm play'
  ! grep -q -e 'qjm --build' "$room/out" || expect 'the help of an installation' "$(cat "$room/out")" 'nothing of --build'
  export LC_ALL=C
  installed tour tale
  unset LC_ALL
  expect_run 'the tour of an installation' "$(told_tale qjm "$room/installed/lib/qjm")" 0
  installed help --build
  expect 'the status of the help of a build in an installation' "$status" 1
  (cd "$room/installed" && grep -r -n -e '[^[:alnum:]_$"/.]\.\.*/qjm\>' . && gzip -dc share/man/man1/qjm.1.gz | grep -n -e '\./qjm' -e '\\-build') >"$room/said"
  expect 'words of a clone in an installation' "$(cat "$room/said")" ''
  expect 'the licences in an installation' "$(cat "$room/installed/share/doc/qjm/licences/hex")" 'the licence of hex'
  for tool in oev draw fsck; do
    [ -f "$room/installed/lib/qjm/launcher/help/$tool.txt" ] || expect "the help of $tool in an installation" absent there
  done
  installed --use
  expect 'the status of --use in an installation' "$status" 69
}

# The record tells the program's sum, and a changed byte is seen.
test_record() {
  sum=$(sha256sum <"$room/installed/lib/qjm/program" | cut -d ' ' -f 1)
  installed --version
  for line in 'qjm 0.1.0' 'proved with some kit' 'crates 2' "program $sum" 'maker The Yemstugo developers'; do
    grep -q "^$line" "$room/out" || expect 'the record' "$(cat "$room/out")" "$line"
  done
  qjm --version
  cmp -s "$room/out" "$room/installed/lib/qjm/record" || expect "a clone's record" "$(cat "$room/out")" 'that of its package'
  installed --version --check
  expect 'the status of a program as it was packed' "$status" 0
  qjm --version --check
  expect 'the status of a program as it was built' "$status" 0
  cp "$room/installed/lib/qjm/program" "$room/whole"
  printf 'X' | dd of="$room/installed/lib/qjm/program" bs=1 seek=30 conv=notrunc 2>/dev/null
  installed --version --check
  expect 'the status of a changed byte' "$status" 5
  expect_said 'a changed byte' "and the record has $sum"
  cp "$room/whole" "$room/installed/lib/qjm/program"
}

# A clone takes the program out of a package of the same sources.
test_use() {
  rm -rf "$room/tree/crates/qjm/out"
  echo other >"$room/tree/crates/low/src/lib.rt"
  qjm --use "$1"
  expect_run 'a package of other sources' '' 70
  expect_said 'a package of other sources' "their sum is $(sed -n 's/^sources //p' "$room/installed/lib/qjm/record")"
  expect_said 'a package of other sources' 'and that of the sources here is'
  echo low >"$room/tree/crates/low/src/lib.rt"
  head -c 300 "$1" >"$room/cut.${1##*.}"
  qjm --use "$room/cut.${1##*.}"
  expect 'the status of a package that is cut' "$status" 3
  qjm --use "$room/nothing.deb"
  expect 'the status of a package that is not there' "$status" 6
  qjm --use "$1"
  expect 'the status of a used package' "$status" 0
  expect_said 'a used package' 'it was proved elsewhere'
  expect_said 'a used package' 'by The Yemstugo developers'
  ask 'a\n' node
  expect_run "a used package's program" 'proved ok' 0
  qjm --version --check
  expect 'the status of a used program' "$status" 0
  grep -q "^taken from ${1##*/}, proved elsewhere" "$room/out" || expect 'the record of a used package' "$(cat "$room/out")" 'where it is from'
  qjm --package "$room"
  expect 'the status of a package of it' "$status" 70
}
