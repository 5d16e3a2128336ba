# The words after ./qjm: which of them are a command's, and the help of each.

# The program's commands, and those that the launcher answers itself.
readonly PROGRAM_COMMANDS='play run piped mirror boot gen node serve lead oev oiv fsck judge states'
# those of them that read a report
readonly REPORT_COMMANDS='judge states'
if is_installed; then
  readonly OWN_COMMANDS='draw tour cluster rules help' OWN_OPTIONS='--version'
else
  readonly OWN_COMMANDS='draw tour cluster rules test help' OWN_OPTIONS='--build --package --use --version'
fi
readonly SEGMENT_LISTINGS='list stats json' IMAGE_LISTINGS='delimited sizes json'

# The greatest number that a word may be.
readonly GREATEST=4611686018427387904

# Whether a word is one of several.
is_among() {
  case $1 in '' | *' '*) return 1 ;; esac
  case " $2 " in *" $1 "*) ;; *) return 1 ;; esac
}

# Whether a word is a decimal number without a leading zero, from the first to the last.
is_number() {
  case $1 in '' | *[!0-9]* | 0?* | ????????????????????*) return 1 ;; esac
  [ "$1" -ge "$2" ] 2>/dev/null && [ "$1" -le "$3" ]
}

# The place of the first wrong word of a listing's command, where these are the words that may stand behind it.
place_in_listing() {
  if [ $# -lt 3 ] || ! is_among "$3" "$1"; then
    echo 1
  elif [ $# -eq 3 ]; then
    echo 2
  elif [ $# -gt 4 ]; then
    echo 3
  fi
}

# The place of the first wrong word of `oev back NAME START EPOCH`.
place_in_back() {
  if [ $# -lt 3 ]; then
    echo 2
  elif ! is_number "${4-}" 1 "$GREATEST"; then
    echo 3
  elif ! is_number "${5-}" 1 "$GREATEST"; then
    echo 4
  elif [ $# -gt 5 ]; then
    echo 5
  fi
}

# The place of the first wrong word of `oiv ls NAME PATH`.
place_in_ls() {
  if [ $# -lt 3 ]; then
    echo 2
    return
  fi
  case ${4-} in
    /*) [ $# -eq 4 ] || echo 4 ;;
    *) echo 3 ;;
  esac
}

# The place of the first wrong word of `gen NUMBER EDITS NODES`.
place_in_gen() {
  if ! is_number "${2-}" 0 "$GREATEST"; then
    echo 1
  elif ! is_number "${3-}" 0 10000; then
    echo 2
  elif ! is_number "${4-}" 1 15; then
    echo 3
  elif [ $# -gt 4 ]; then
    echo 4
  fi
}

# The place of the first wrong word of `serve CLIENTS [FOLDER]`.
place_in_serve() {
  if ! is_number "${2-}" 1 64; then
    echo 1
  elif [ $# -gt 3 ]; then
    echo 3
  fi
}

# The place of the first wrong word of `lead NODES [FOLDER [SECONDS]]`.
place_in_lead() {
  if ! is_number "${2-}" 1 15; then
    echo 1
  elif [ $# -gt 3 ] && ! is_number "$4" 1 3600; then
    echo 3
  elif [ $# -gt 4 ]; then
    echo 4
  fi
}

# The place of the first wrong word of a program's command, counted from 0, or how many there are where one is missing. Nothing
# where the words are a command. The program's own rule is the same, and waits for no quick run here.
wrong_place() {
  case ${1-},${2-} in
    play,* | run,* | piped,* | mirror,* | boot,* | node,* | fsck,* | judge,* | states,*) [ $# -eq 1 ] || echo 1 ;;
    oev,back) place_in_back "$@" ;;
    oev,*) place_in_listing "$SEGMENT_LISTINGS" "$@" ;;
    oiv,ls) place_in_ls "$@" ;;
    oiv,*) place_in_listing "$IMAGE_LISTINGS" "$@" ;;
    gen,*) place_in_gen "$@" ;;
    serve,*) place_in_serve "$@" ;;
    lead,*) place_in_lead "$@" ;;
    *) echo 0 ;;
  esac
}

# Which words may stand at this place.
legal_words() {
  case $1${2-},${3-} in
    0* | 1help,*) echo "the commands are $PROGRAM_COMMANDS $OWN_COMMANDS" ;;
    1node,*) echo 'after `node` comes nothing, or `--unchecked` alone; to serve another folder go there (cd), then `node`' ;;
    1fsck,*) echo 'after `fsck` comes nothing; to check another folder go there (cd), then `fsck`' ;;
    1judge,* | 1states,*) echo "after \`$2\` comes nothing; the report is the standard input: \`./qjm $2 < FILE\`" ;;
    [2-9]draw,--live) echo 'after `draw --live` comes the name of a page, as live.html, and nothing else' ;;
    ?draw,*) echo 'after `draw` come --steps, or --svg and --whole, and a title; the report is the standard input: `./qjm draw < FILE`' ;;
    1tour,*) echo "after \`tour\` comes nothing, or one story: $(list_stories | paste -sd ' ' -)" ;;
    1play,* | 1run,* | 1mirror,* | 1boot,*) echo "after \`$2\` comes nothing, or the name of one file" ;;
    1oev,*) echo "after \`oev\` comes one of $SEGMENT_LISTINGS back" ;;
    1oiv,*) echo "after \`oiv\` comes one of $IMAGE_LISTINGS ls" ;;
    2oev,back) echo "the name of a listing comes next, then START and EPOCH" ;;
    2oiv,ls) echo "the name of an image comes next, then PATH" ;;
    2oev,* | 2oiv,*) echo "the name of a file comes last" ;;
    3oev,back) echo "START is from 1 to $GREATEST, without a leading zero" ;;
    3oiv,ls) echo "PATH comes last, and begins with \`/\`" ;;
    4oev,back) echo "EPOCH is from 1 to $GREATEST, without a leading zero" ;;
    1serve,*) echo "CLIENTS is from 1 to 64" ;;
    3serve,*) echo "the name of a folder comes last" ;;
    3lead,*) echo "SECONDS is from 1 to 3600, without a leading zero" ;;
    1--version,*) echo 'after `--version` comes nothing, or `--check`' ;;
    1--use,*) echo "the name of a package's file comes last" ;;
    2--package,*) echo 'after `--package` comes nothing, or the name of one folder' ;;
    1lead,*) echo "NODES is from 1 to 15" ;;
    1gen,*) echo "NUMBER is from 0 to $GREATEST, without a leading zero" ;;
    2gen,*) echo "EDITS is from 0 to 10000, without a leading zero" ;;
    3gen,*) echo "NODES is from 1 to 15" ;;
    *) echo "no further word is wanted" ;;
  esac
}

# Tells the first wrong word as the program does, with the words that may stand there, and ends.
refuse_words() {
  place=$1
  shift
  command=${1-}
  legal=$(legal_words "$place" "$@")
  if [ $# -eq 0 ]; then
    say "a command is wanted: $legal"
  elif [ "$place" -ge $# ]; then
    say "a word is missing after \`$*\`: $legal"
  else
    shift "$place"
    say "\`$1\` $([ "$place" -eq 0 ] && echo 'is no command' || echo "may not stand here"): $legal"
  fi
  show_way "$command"
  echo "error Usage $place"
  exit 1
}

# Where the help of a command is.
show_way() {
  if [ "$1" != help ] && is_among "$1" "$PROGRAM_COMMANDS $OWN_COMMANDS"; then
    say "\`./qjm help $1\` has an example"
  else
    say "\`./qjm help\` says what each does"
  fi
}

# Whether a command reads a script.
reads_script() {
  is_among "$1" 'play run piped mirror boot'
}

# Shows the text of a command, or the whole one.
show_help() {
  case ${1-} in
    '' | help)
      cat "$top/launcher/help/qjm.txt"
      is_installed || cat "$top/launcher/help/clone.txt"
      ;;
    *)
      is_among "$1" "$PROGRAM_COMMANDS $OWN_COMMANDS $OWN_OPTIONS" || is_among "--$1" "$OWN_OPTIONS" || refuse_words 1 help "$1"
      cat "$top/launcher/help/${1#--}.txt"
      ;;
  esac
}
