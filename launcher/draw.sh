# Pictures: of a report as one page or one SVG, of a report as a page that one steps through, and of a running cluster.

# Draws the report on the standard input: as a page or, with --svg, as one SVG; with --whole no stretch of it is folded; with --steps
# as a page that one steps through. A last word is the picture's title. With --live a running cluster is drawn.
draw() {
  format=html foldrows='' title='' kind='' place=1
  for word in "$@"; do
    case $word,$kind in
      --svg, | --svg,still) format=svg kind=still ;;
      --whole, | --whole,still) foldrows=0 kind=still ;;
      --steps,) kind=steps ;;
      --live,) kind=live ;;
      --svg,* | --whole,* | --steps,* | --live,*) refuse_words "$place" draw "$@" ;;
      *) title=$word; break ;;
    esac
    place=$((place + 1))
  done
  [ $# -le "$place" ] || refuse_words $((place + 1)) draw "$@"
  if [ "$kind" = live ]; then
    [ -n "$title" ] || refuse_words "$place" draw "$@"
    draw_live "$title"
    return
  fi
  # (a file's name is no title: who gives one means the report)
  [ ! -f "$title" ] || refuse_words "$place" draw "$@"
  greet_terminal 'a report'
  if [ "$kind" = steps ]; then
    draw_steps
  else
    draw_still
  fi
}

# Draws the report on the standard input as a picture that stands still.
draw_still() {
  set -- -v "format=$format" -v "foldrows=$foldrows" -v "title=$title"
  for part in "$top"/draw/*.awk; do
    set -- "$@" -f "$part"
  done
  exec awk "$@"
}

# The file with the sentences of a story's lines, where a story is drawn (launcher/tour.sh).
told=''

# Draws the report on the standard input as a page that one steps through.
draw_steps() {
  make_room
  fault=''
  cat >"$room/report" || refuse_room "the report isn't kept"
  list_states <"$room/report" >"$room/states"
  case $? in
    0) ;;
    5)
      say "this report's lists don't agree, so no states come of them: \`./qjm judge < REPORT\` says where they don't;" \
        "\`./qjm draw\` without --steps draws it all the same"
      exit 5
      ;;
    2) fault=$(head -n 1 "$room/states") ;;
    *) say "no states came of this report"; exit 1 ;;
  esac
  write_steps <"$room/report" >"$room/data" || exit
  put_page "$room/data"
}

# The state of each node after each event of the report on the standard input, a line of JSON each: those of the proved program.
list_states() {
  choose_program || refuse_unbuilt "a page of steps draws the states that the program tells, and the quick program couldn't be kept"
  "$program" states
}

# The data of the page, from the report on the standard input and the file `states` in the room.
write_steps() {
  set -- -v "states=$room/states" -v "title=$title" -v "story=$told" -v "fault=$fault"
  for part in "$top"/draw/*.awk; do
    case $part in */page.awk) ;; *) set -- "$@" -f "$part" ;; esac
  done
  for part in states story data; do
    set -- "$@" -f "$top/draw/steps/$part.awk"
  done
  awk "$@"
}

# Puts the page together: its frame, colours, style and script, and the data in the file $1.
put_page() {
  set -- -v "data=$1" -v "title=${title:-A quorum journal}" -v "kind=$kind" -v "folder=$top/draw/steps"
  for part in style parts words numbers; do
    set -- "$@" -f "$top/draw/$part.awk"
  done
  awk "$@" -f "$top/draw/steps/page.awk" "$top/draw/steps/page.html"
}

# Writes a page over the running cluster of the current folder to the file $1, and what the page reads to a file beside it, anew each
# second, until a signal ends it. Statuses that come by a pipe or a file, a line each, take the keeper's place, and end it.
draw_live() {
  case ${1##*/} in
    *[!A-Za-z0-9._-]* | .html) say "\`$1\` is no name for such a page: letters, digits, \`.\`, \`_\` and \`-\`"; exit 1 ;;
    *.html) ;;
    *) say "\`$1\` isn't the name of a page, which ends with .html"; exit 1 ;;
  esac
  make_room
  if [ -p /dev/stdin ] || [ -f /dev/stdin ]; then
    begin_live "$1"
    keep_statuses "$1.js"
  else
    (cluster status --json --timeout 5) >"$room/status"
    status=$?
    is_among "$status" '0 10 11' || exit "$status"
    begin_live "$1"
    ask_statuses | keep_statuses "$1.js"
  fi
}

# Writes the page itself, and an empty file beside it.
begin_live() {
  title='A running cluster'
  printf '{"title":"%s","live":"%s"}\n' "$title" "${1##*/}.js" >"$room/data"
  { : >"$1.js" && put_page "$room/data" >"$1"; } 2>/dev/null || { say "the page can't be written to $1"; exit 1; }
  say "$1 is written: open it in a browser; Ctrl-C ends it"
}

# The status of the cluster in the current folder, each second, a line of JSON each. A keeper that doesn't answer is one too.
ask_statuses() {
  while :; do
    (cluster status --json --timeout 5 2>/dev/null)
    is_among $? '0 10 11' || echo '{"fault": "no keeper answers here"}'
    sleep 1
  done
}

# Adds each status of the standard input to the file $1, which is written whole each time.
keep_statuses() {
  number=0
  : >"$room/kept"
  while IFS= read -r line; do
    number=$((number + 1))
    printf '%s\n' "$line" | awk -v "kept=$room/kept" -v "now=$(date +%s)" -v "clock=$(date +%H:%M:%S)" \
      -f "$top/draw/steps/live.awk" >"$1.new" || { say "draw: line $number: not a status as \`./qjm cluster status --json\` writes it"; return 1; }
    mv -f "$1.new" "$1" || return
  done
}
