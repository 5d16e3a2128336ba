# The folder of a node: what `fsck` finds in it in plain words, what is no file there, and whether it may be served.

# Nineteen digits, as a txid or an epoch has in a name.
five='[0-9][0-9][0-9][0-9][0-9]'
readonly DIGITS="$five$five${five}[0-9][0-9][0-9][0-9]"

# The kinds of a node's files, by their names: each has its own advice.
kind_of_name() {
  # shellcheck disable=SC2254
  case $1 in
    last-promised-epoch | last-writer-epoch | committed-txid) echo number ;;
    edits_inprogress_$DIGITS) echo 'in progress' ;;
    edits_$DIGITS-$DIGITS) echo final ;;
    paxos/$DIGITS) echo record ;;
    fsimage_$DIGITS | fsimage_$DIGITS.md5) echo image ;;
    *) echo other ;;
  esac
}

# Whether a node keeps or makes a file of this name.
is_of_node() {
  # shellcheck disable=SC2254
  case ${1%.tmp} in
    last-promised-epoch | last-writer-epoch | committed-txid | paxos/$DIGITS) return 0 ;;
  esac
  # shellcheck disable=SC2254
  case $1 in
    edits_inprogress_$DIGITS | edits_inprogress_$DIGITS.new | edits_$DIGITS-$DIGITS) ;;
    edits_inprogress_$DIGITS.epoch=*) is_number "${1##*.epoch=}" 1 "$GREATEST" ;;
    *) return 1 ;;
  esac
}

# What stands under a name, where that is no file: a node takes such a name for absent, or waits for it for ever.
what_is() {
  if [ -d "$1" ]; then
    echo 'a folder'
  elif [ -p "$1" ]; then
    echo 'a named pipe'
  elif [ -b "$1" ] || [ -c "$1" ]; then
    echo 'a device'
  elif [ -S "$1" ]; then
    echo 'a socket'
  else
    echo 'a link that leads nowhere'
  fi
}

# Lists the names of the folder and of its subfolder, a call of the command $1 each.
each_name() {
  for name in * .[!.]* ..?* paxos/* paxos/.[!.]* paxos/..?*; do
    { [ ! -e "$name" ] && [ ! -L "$name" ]; } || "$@" "$name"
  done
}

# ## Findings that the program doesn't see

# Writes such a finding of a name, as `fsck` writes one: the rule is `kind`, `subfolder`, `epoch` or `beside`.
find_own() {
  # shellcheck disable=SC2254
  if [ "$1" = paxos ]; then
    [ -d paxos ] || echo 'bad paxos subfolder 0 0'
  elif ! is_of_node "$1"; then
    return
  elif [ ! -f "$1" ]; then
    printf '%s\n' "bad $1 kind 0 0"
  else
    case $1 in
      paxos/$DIGITS | *.epoch=*) find_epoch "$1" ;;
      edits_inprogress_$DIGITS) find_epoch "$1"; find_beside "$1" ;;
    esac
  fi
}

# A segment in progress or one that is being accepted, or a record, of an epoch above the promise.
find_epoch() {
  epoch=$(epoch_of "$1")
  ! is_above "$epoch" "$promise" || printf '%s\n' "bad $1 epoch $epoch $promise"
}

# A segment in progress with more edits than the final one of its start beside it, for which opening removes it.
find_beside() {
  last=''
  for final in "edits_${1#edits_inprogress_}-"*; do
    [ -f "$final" ] || continue
    last=${last:-$(last_of_segment "$1")}
    end=$(plain "${final##*-}")
    ! is_above "$last" "$end" || printf '%s\n' "bad $1 beside $last $end"
  done
}

# Whether both are numbers, and the first is the greater one.
is_above() {
  [ "$1" -gt "$2" ] 2>/dev/null
}

# A number of 19 digits without its leading zeros.
plain() {
  printf '%s\n' "$1" | sed 's/^0*\(.\)/\1/'
}

# The promised epoch, 0 where its file is absent; nothing where it is no number, which is a finding of the program's.
read_promise() {
  if [ -f last-promised-epoch ]; then
    sed -n '1s/^0*\([0-9][0-9]*\)$/\1/p' last-promised-epoch 2>/dev/null
  else
    echo 0
  fi
}

# The epoch in a name, or that in a segment's header, 8 bytes big-endian at offset 16, or that of a record; nothing where there is
# none.
epoch_of() {
  case $1 in *.epoch=*) printf '%s' "${1##*.epoch=}"; return ;; esac
  if is_segment "$1"; then
    printf '%d' "0x$(od -An -v -tx1 -j 16 -N 8 "$1" | tr -d ' \n')" 2>/dev/null
  else
    sed -n '1s/^0*\([0-9][0-9]*\) [0-9]*$/\1/p' "$1" 2>/dev/null
  fi
}

# The last txid of a segment's file, by what its frames count.
last_of_segment() {
  first=$(plain "${1##*_}")
  echo $((first - 1 + $(od -An -v -tu1 -j 24 "$1" 2>/dev/null | awk -f "$top/launcher/count.awk")))
}

# Whether a file begins as a segment's does, or as an image.
is_segment() { [ "$(first_four "$1")" = QJSG ]; }
is_image() { [ "$(first_four "$1")" = QJIM ]; }

# The first four bytes of a file, but zeros, which no text of a shell has.
first_four() { head -c 4 -- "$1" 2>/dev/null | tr -d '\000'; }

# ## Names in a text

# Escapes the names in what was found that have control characters, as the text `shown`. Such a name may have the end of a line in
# it, so it is looked for as a whole, behind the first word of its line.
escape_names() {
  shown=$1
  each_name escape_name
}

# Escapes one name in the text, where it has a control character.
escape_name() {
  case $1 in
    *[[:cntrl:]]*)
      escaped=$(printf '%s\n' "$shown" | NAME=$1 LC_ALL=C awk -f "$top/launcher/names.awk") && shown=$escaped
      ;;
  esac
}

# ## Findings in words

# Which row of the table a finding has: some rules have one for each kind of file.
row_of_finding() {
  kind=$(kind_of_name "$1")
  if [ "$2" = 2 ] && [ "$kind" = 'in progress' ]; then
    echo '2, in progress'
  elif [ "$2" = 5 ] && [ "$kind" = record ]; then
    echo '5, record'
  elif [ "$2" = 5 ]; then
    echo "5, $1"
  else
    echo "$2"
  fi
}

# Says what a finding means, what to do first, and what not to do. The advice of a row is said once.
tell_finding() {
  row=$(row_of_finding "$1" "$2")
  case $2 in [0-9]*) told_rule=" (rule $2)" ;; *) told_rule='' ;; esac
  words=$(cell 'rules of fsck' "$row" 1 | sed "s/V1/$3/g; s/V2/$4/g; s/KIND/$(what_is "$1")/")
  printf '%s%s: %s\n' "$1" "$told_rule" "$words" | say_lines
  case $told_rows in *"|$row|"*) return ;; esac
  told_rows="$told_rows|$row|"
  tell_advice 'rules of fsck' "$row" 2
}

# Says the two cells of a row that tell what to do first and what not to do.
tell_advice() {
  cell "$1" "$2" "$3" | sed '/./s/^/First: /' | say_lines
  cell "$1" "$2" $(($3 + 1)) | sed '/./s/^/Not: /' | say_lines
}

# Says the findings, the first twenty, and leaves in `told` how many there are, or nothing where that can't be said. With
# `hindering` those alone that keep a node from being served.
tell_findings() {
  told=''
  chosen=$(printf '%s\n' "$findings" | choose_findings "${1-}") || return 0
  told=$(printf '%s\n' "$chosen" | LC_ALL=C grep -a -c .)
  printf '%s\n' "$chosen" | sed -n 1,20p | tell_each
  [ "${told:-0}" -le 20 ] || say "and $((told - 20)) more"
}

# Writes those of the findings on the standard input that are to be told.
choose_findings() {
  while read -r line; do
    split_finding "$line"
    [ "$1" != hindering ] || is_hindering "$finding_rule" || continue
    [ "$finding_name $finding_rule" != 'paxos 1' ] || continue # its own finding tells it
    printf '%s\n' "$line"
  done
}

# Says each finding on the standard input.
tell_each() {
  told_rows=''
  while read -r line; do
    split_finding "$line"
    [ -z "$line" ] || tell_finding "$finding_name" "$finding_rule" "$finding_first" "$finding_second"
  done
}

# Takes a line `bad NAME RULE V1 V2` apart.
split_finding() {
  finding_second=${1##* }
  set -- "${1% *}"
  finding_first=${1##* }
  set -- "${1% *}"
  finding_rule=${1##* }
  set -- "${1% *}"
  finding_name=${1#bad }
}

# Whether a folder with such a finding isn't to be served. Names that are none of a node's, and images, are no reason.
is_hindering() {
  is_among "$1" '2 3 4 5 8 9 kind subfolder epoch beside'
}

# ## Checks

# Has the program check the folder. What it wrote is `shown`, with names escaped, and each line of it that is a finding stands in
# `findings`, with those of the launcher's own.
find_findings() {
  find_guard
  # shellcheck disable=SC2086
  found=$(exec $guard "$program" fsck </dev/null)
  status=$?
  escape_names "$found"
  promise=$(read_promise)
  findings=$(printf '%s\n' "$shown" | LC_ALL=C grep -a '^bad '; each_name find_own)
}

# Whether as many lines of the program's are among the findings as its last line counts. They aren't where a tool failed that
# takes its text apart.
is_complete() {
  case $status in 0 | 5) ;; *) return 0 ;; esac
  number=' [0-9][0-9]*'
  [ "$(printf '%s\n' "$findings" | LC_ALL=C grep -a -c "^bad .*$number$number$number\$")" = "${found##*findings }" ]
}

# Says that findings of the program's were lost.
tell_lost_findings() {
  say "the program tells ${found##*findings } findings here, and the launcher couldn't take all of them apart: look at grep, sed and awk"
}

# Whether another process has the folder's lock, where this machine can say so.
is_taken() {
  command -v flock >/dev/null || return
  flock -s -n . true 2>/dev/null
  [ $? -eq 1 ]
}

# Ends the launcher where another node has the folder, with the program's own words for it. The program isn't asked: where that
# node ends meanwhile it would serve a folder that wasn't checked.
refuse_taken() {
  status=75
  echo 'error Locked'
  explain node
  exit "$status"
}

# Ends the launcher where the folder isn't to be served, with what was found. What is found in a folder that another node has, or
# that one took meanwhile, counts for nothing, since its files change.
check_before_serving() {
  ! is_taken || refuse_taken
  find_findings
  ! is_taken || refuse_taken
  tell_findings hindering
  if [ -z "$told" ] || ! is_complete; then
    tell_lost_findings
    say "this folder isn't served"
    exit 5
  elif [ "$told" -ne 0 ]; then
    say "this folder isn't served: $told of its files would make the node answer what isn't so, or forget what it answered"
    exit 5
  fi
  case $status in 0 | 5) return ;; esac
  explain fsck
  say "the folder couldn't be checked, so it isn't served"
  propose_way
  exit "$status"
}

# Says how a folder is served that an image alone keeps from being checked.
propose_way() {
  case $status in
    8)
      ! hinders_image ||
        say "\`./qjm node --unchecked\` serves it, since no node reads an image; what the check finds else isn't found then"
      ;;
    9)
      ! has_image ||
        say "no node reads an image, and the check does: with the images moved out of the folder it wants less memory"
      ;;
  esac
}

# Whether images are the only files here that may not be read.
hinders_image() {
  each_name find_unreadable | awk '!/^fsimage_/ { others++ } END { exit others || !NR }'
}

has_image() {
  for image in fsimage_*; do
    [ ! -f "$image" ] || return 0
  done
  return 1
}

# Says that a node begins anew: where the folder ought to hold one, its disk may be missing.
tell_fresh() {
  [ ! -r . ] || [ -n "$(each_name write_own)" ] || say 'a fresh node: this folder holds no files of one'
}

# Writes a name that is one of a node's.
write_own() {
  ! is_of_node "$1" || printf '%s\n' "$1"
}
