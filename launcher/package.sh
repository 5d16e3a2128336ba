# Packages of the proved program: a tarball that runs where it is unpacked, and a Debian package. Neither has sources, and who
# installs one needs no kit.

# The time that every file of a package gets: that of the last commit, or of the program where there is no git.
package_time() {
  git -C "$top" log -1 --format=%ct 2>/dev/null || stat -c %Y "$program"
}

# Whether a file of launcher/ is packed: what builds, tries and packs sources isn't wanted where there are none.
is_packed() {
  case $1 in
    build.sh | quick.sh | package.sh | use.sh | cases.* | manual | complete.bash) return 1 ;;
    help/build.txt | help/package.txt | help/use.txt | help/test.txt | help/clone.txt) return 1 ;;
    test | test_* | tests/* | */tests/* | .* | */.* | *~ | *.pyc) return 1 ;;
  esac
}

# Has the words of a text name the command as it is called where it is installed, and documents and examples where they stand there.
name_installed() {
  sed 's,\(^\|[^[:alnum:]_"$/.]\)\(\.\.*/\)\(\.\./\)*qjm\>,\1qjm,g
    s,\(^\|[^[:alnum:]_/]\)\(docs/[A-Z]*\.md\|examples/\),\1'"$texts"'\2,g'
}

# Copies a file so to another name.
copy_words() {
  name_installed <"$1" >"$2"
  [ ! -x "$1" ] || chmod 755 "$2"
}

# Copies files so into the folder $1.
copy_texts() {
  folder=$1
  shift
  for file in "$@"; do
    copy_words "$file" "$folder/${file##*/}"
  done
}

# Lays out the program, its record, and what the launcher runs and reads, in the folder $1.
lay_out_launcher() {
  mkdir -p "$1/draw/steps" "$1/docs" "$1/examples/stories"
  install -m 755 "$program" "$1/program"
  write_record "$(kit_of_program)" >"$1/record"
  copy_texts "$1" "$top/qjm"
  (cd "$top/launcher" && find . -type f) | sed 's|^\./||' | while IFS= read -r name; do
    is_packed "$name" || continue
    mkdir -p "$(dirname "$1/launcher/$name")"
    copy_words "$top/launcher/$name" "$1/launcher/$name"
  done
  copy_texts "$1/draw" "$top"/draw/*.awk
  copy_texts "$1/draw/steps" "$top"/draw/steps/*
  # (the launcher reads its tables; the folder of documents is for reading alone, and some systems leave it out)
  copy_texts "$1/docs" "$top/docs/FORMATS.md"
  install -m 644 "$top"/examples/stories/*.qjm "$1/examples/stories"
}

# Lays out what is to be read, in the folder $1: documents, which name one another from their own folder, examples, and the licences
# of all that the program is made of.
lay_out_documents() {
  texts=''
  mkdir -p "$1/docs" "$1/examples/stories" "$1/licences"
  copy_texts "$1" "$top/README.md" "$top/LICENSE" "$top/NOTICE"
  copy_texts "$1/docs" "$top"/docs/*.md
  install -m 644 "$top"/docs/*.svg "$top"/docs/*.png "$1/docs"
  install -m 644 "$top"/examples/*.* "$1/examples"
  install -m 644 "$top"/examples/stories/*.qjm "$1/examples/stories"
  copy_licences "$1/licences"
}

# Lists the kit's libraries that NOTICE names.
list_noticed() {
  awk '/^  [a-z]/ { print $1 }' "$top/NOTICE"
}

# Copies their licences into the folder $1, since these libraries are part of the program: of one that has two, MIT's.
copy_licences() {
  kit=$(dirname "$(readlink -f "$(command -v rt)")")/../rattle
  for library in $(list_noticed); do
    text=$kit/$library/LICENSE-MIT
    [ -f "$text" ] || text=$kit/$library/LICENSE
    [ -f "$text" ] || { say "the kit has no licence of $library, which NOTICE names: $text"; exit "$NO_KIT"; }
    install -m 644 "$text" "$1/$library"
  done
}

# Lays the files out below the folder $1, as they stand in an installation there; $2 stands before the names of documents and
# examples.
lay_out() {
  texts=$2
  lay_out_launcher "$1/lib/qjm"
  mkdir -p "$1/bin" "$1/share/man/man1" "$1/share/bash-completion/completions"
  "$top/launcher/manual" installed | name_installed | gzip -9n >"$1/share/man/man1/qjm.1.gz"
  grep -v '^#' "$top/launcher/complete.bash" |
    sed 's|^complete .*|complete -o filenames -F _qjm qjm|; s| --build\>||; s| --package\>||; s| --use\>||; s| test\>||' \
      >"$1/share/bash-completion/completions/qjm"
  ln -s ../lib/qjm/qjm "$1/bin/qjm"
  lay_out_documents "$1/share/doc/qjm"
}

# Gives every file the package's time, so that the same sources and the same program make the same bytes.
set_times() {
  find "$1" -depth -exec touch -h -d "@$when" {} +
}

# Makes the tarball.
make_tarball() {
  name=qjm-$VERSION-linux-x86_64
  lay_out "$room/$name" ''
  install -m 644 "$top"/packaging/*.service "$room/$name/share/doc/qjm/examples"
  set_times "$room/$name"
  (cd "$room" && find "$name" | LC_ALL=C sort | tar --no-recursion --owner=0 --group=0 --numeric-owner --format=gnu -cf - -T -) |
    gzip -9n >"$room/$name.tar.gz"
  mv "$room/$name.tar.gz" "$1"
  say "$1/$name.tar.gz: unpack it anywhere; bin/qjm is the command"
}

# How many KiB the files below a folder take, each by itself.
count_kibibytes() {
  find "$1" -type f -printf '%s\n' | awk '{ sum += int(($1 + 1023) / 1024) } END { print sum }'
}

# Writes the package's own description. A program that is linked with nothing depends on nothing.
write_control() {
  libc=$(libc_wanted)
  sed "s/@VERSION@/$VERSION/; s/@LIBC@/${libc:-none}/; s/@SIZE@/$(count_kibibytes "$1")/; /(>= none)/d" "$top/packaging/control"
}

# Writes the changes of the package, as its system wants them.
write_changes() {
  printf 'qjm (%s) unstable; urgency=medium\n\n  * Made by ./qjm --package.\n\n -- %s  %s\n' "$VERSION" \
    "$(sed -n 's/^Maintainer: //p' "$top/packaging/control")" "$(LC_ALL=C date -u -R -d "@$when")"
}

# Lays out what a Debian package has beside the rest, below the folder $1.
lay_out_system() {
  mkdir -p "$1/DEBIAN" "$1/usr/lib/systemd/system" "$1/usr/lib/sysusers.d" "$1/usr/share/lintian/overrides"
  install -m 644 "$top"/packaging/*.service "$1/usr/lib/systemd/system"
  install -m 644 "$top/packaging/sysusers.conf" "$1/usr/lib/sysusers.d/qjm.conf"
  install -m 644 "$top/packaging/copyright" "$1/usr/share/doc/qjm/copyright"
  install -m 644 "$top/packaging/lintian-overrides" "$1/usr/share/lintian/overrides/qjm"
  write_changes | gzip -9n >"$1/usr/share/doc/qjm/changelog.gz"
  write_control "$1/usr" >"$1/DEBIAN/control"
  install -m 755 "$top/packaging/postinst" "$top/packaging/prerm" "$top/packaging/postrm" "$1/DEBIAN"
  (cd "$1" && find usr -type f | LC_ALL=C sort | tr '\n' '\0' | xargs -0 md5sum) >"$1/DEBIAN/md5sums"
}

# Makes the Debian package, where its tool is there.
make_deb() {
  if ! command -v dpkg-deb >/dev/null; then
    say "no Debian package was made, since there is no dpkg-deb here"
    return
  fi
  deb=qjm_${VERSION}_amd64.deb
  lay_out "$room/deb/usr" /usr/share/doc/qjm/
  lay_out_system "$room/deb"
  set_times "$room/deb"
  # (what several threads compress has other bytes)
  SOURCE_DATE_EPOCH=$when DPKG_DEB_THREADS_MAX=1 dpkg-deb --root-owner-group -Zxz --build "$room/deb" "$room/$deb" >/dev/null
  mv "$room/$deb" "$1"
  say "$1/$deb: apt-get install ./$deb"
}

# Makes both packages of the proved program in a folder, by default in this one.
package() {
  if ! is_proved; then
    say "a package has the proved program alone, and it isn't built yet: \`./qjm --build\` makes it"
    return "$NOT_BUILT"
  elif is_taken_from_package; then
    say "this program was taken from a package and proved elsewhere: hand on that package, $(told_in "$record" 'taken from')"
    return "$NOT_BUILT"
  fi
  require_kit
  into=$(cd "${1:-.}" 2>/dev/null && pwd) || { say "there is no folder ${1-}"; return 6; }
  make_room
  when=$(package_time)
  umask 022
  # (the first step that fails, as on a full disk, ends it: no package lacks anything)
  (
    set -e
    make_tarball "$into"
    make_deb "$into"
  )
  made=$?
  [ "$made" -ne "$NO_KIT" ] || return "$made"
  [ "$made" -eq 0 ] || { say "a package couldn't be made, or not be written to $into"; return "$NO_ROOM"; }
}
