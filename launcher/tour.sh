# The tour: the stories of examples/stories, line by line. Each line is played together with those before it, and what came of it
# is what the report then has beyond the one before. In a terminal each waits for Enter.

# The names of the stories, a line each, in their order.
list_stories() {
  (cd "$top/examples/stories" 2>/dev/null && ls) | sed -n 's/^[0-9]*-\(.*\)\.qjm$/\1/p'
}

# The file of a story.
file_of_story() {
  find "$top/examples/stories/" -name "[0-9]*-$1.qjm"
}

# Tells one story, or all of them.
tour() {
  [ $# -le 1 ] || refuse_words 2 tour "$@"
  [ $# -eq 0 ] || is_among "$1" "$(list_stories | tr '\n' ' ')" || refuse_words 1 tour "$@"
  is_guided=no
  { [ ! -t 0 ] || [ ! -t 1 ]; } || is_guided=yes
  choose_program || refuse_unbuilt "a tour plays many scripts, and the quick program that would do it couldn't be kept"
  make_room
  number=0
  count=$(list_stories | wc -l | tr -d ' ')
  for name in $(list_stories); do
    number=$((number + 1))
    [ $# -eq 0 ] || [ "$name" = "$1" ] || continue
    tell_story "$(file_of_story "$name")" && offer_page || return 0
  done
}

# Tells the story in a file. Fails where the reader has enough of it.
tell_story() {
  story=$1 text='' title=''
  : >"$room/script"
  : >"$room/before"
  : >"$room/told"
  while IFS= read -r line <&4; do
    case $line in
      '') begin_story "$text"; text='' ;;
      '#'*) text="$text${line#\#}" ;;
      *)
        tell_line "$line" "$text" || return
        text=''
        ;;
    esac
  done 4<"$story"
}

# Says what a story is about: its title is the first sentence at its head.
begin_story() {
  title=${1%%. *}
  title=${title# }
  printf '\n== %s (%s of %s)\n' "$title" "$number" "$count"
  printf '%s\n' "${1#*. }" | fold_text
  printf '\t%s\n' "${1#*. }" >>"$room/told"
}

# Plays the script up to this line, and shows the line with its sentence and what came of it. Fails where the reader has enough.
tell_line() {
  printf '%s\n' "$1" >>"$room/script"
  "$program" play <"$room/script" >"$room/after" || refuse_room "$story isn't played to its end: the program's status is $?"
  printf '\n'
  printf '%s\n' "${2# }" | fold_text
  printf '> %s\n' "$1"
  tell_came >"$room/came"
  printf '%s\t%s\n' "$(count_records <"$room/after")" "${2# }" >>"$room/told"
  mv "$room/after" "$room/before"
  [ -s "$room/came" ] || return 0
  cat "$room/came"
  [ "$is_guided" = no ] || ask_reader '[Enter: go on, q: end] '
}

# Text in lines of at most 78 characters.
fold_text() {
  fold -s -w 76 | sed 's/ *$//; s/^/  /'
}

# What came of the last line, by the words of the pictures; in letters alone where the terminal's aren't UTF-8.
tell_came() {
  set -- -v "before=$room/before" -v "plain=$(is_utf8 || echo 1)"
  for part in "$top"/draw/*.awk; do
    case $part in */page.awk) ;; *) set -- "$@" -f "$part" ;; esac
  done
  awk "$@" -f "$top/launcher/tour.awk" <"$room/after"
}

# How many lines the record of each actor in a report has, as `a=12 b=3`; the end of an actor with names is no line of it.
count_records() {
  awk '/^actor / { name = $2; next } /^(position |\. \/|end$)/ { next } name != "" { lines[name]++ }
    END { for (name in lines) printf "%s=%d ", name, lines[name] }'
}

# Whether the characters of this place are UTF-8.
is_utf8() {
  case ${LC_ALL:-${LC_CTYPE:-${LANG-}}} in
    *[Uu][Tt][Ff]8* | *[Uu][Tt][Ff]-8*) ;;
    *) return 1 ;;
  esac
}

# Asks the reader. Fails at a q, and where the input ends.
ask_reader() {
  printf '%s' "$1"
  answer=q
  # shellcheck disable=SC2034
  read -r answer || printf '\n'
  [ "${answer:-go on}" != q ]
}

# Offers the page of the story that was told. Fails where the reader has enough.
offer_page() {
  if [ "$is_guided" = no ]; then
    printf '\n  Its page: ./qjm play %s | ./qjm draw --steps "%s" > %s.html\n' "$(as_typed "$story")" "$title" "$name"
    return
  fi
  while ask_reader '[Enter: go on, p: write the story as a page to step through, q: end] '; do
    [ "$answer" = p ] || return 0
    write_page
  done
  return 1
}

# Writes the page of the story that was told, to step through, here or where temporary files are.
write_page() {
  page=qjm-$name.html
  [ -w . ] || page=${TMPDIR:-/tmp}/qjm-$name.html
  if (told=$room/told && draw --steps "$title" <"$room/before" >"$page"); then
    printf '%s is written: open it in a browser\n' "$page"
  else
    say "the page couldn't be written to $page"
  fi
}
