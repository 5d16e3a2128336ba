# Tests what is said of a script's bad line, of a damaged frame or edit, and of a listing that becomes no segment: what the
# launcher's awk sees of each. launcher/test reads it, and has what it calls.

# The one cause of a bad line, with its column.
test_causes() {
  while IFS='|' read -r line rule kind text said; do
    printf '%b' "$text" >"$room/tree/input"
    lacks_end=''
    [ "$(tail -c 1 "$room/tree/input" | od -An -tx1 | tr -d ' ')" = 0a ] || lacks_end=yes
    found=$(LC_ALL=C awk -v line="$line" -v rule="$rule" -v kind="$kind" -v lacks_end=$lacks_end -f "$top/launcher/line.awk" "$room/tree/input")
    expect "the cause in line $line of $text" "$found" "$said"
  done <<'TEXT'
2|10|play|raw 3\nwriter \303\244\n|column 8: a letter past ASCII (the byte c3)
2|3|play|raw 3\nroll\ta\n|column 5: a tab; words stand one space apart
1|10|play|raw 3\r\n|column 6: the line ends in CR LF; a line ends in LF alone
2|10|play|raw 3\nwriter a|column 9: the last line has no line feed at its end
1|1|play| raw 3\n|column 1: a space before the first word
1|1|play|raw  3\n|column 5: a second space; words stand one space apart
1|1|play| row 3\n|column 1: a script begins with `raw N` or `names N`, N from 1 to 15
1|1|play|row 3\n|column 1: a script begins with `raw N` or `names N`, N from 1 to 15
2|2|play|raw 3\ntail a\n|column 1: `tail` begins no line here; these do: writer log purge takeover roll close drop mute late kill restart stop cut
3|3|play|raw 3\nwriter a\ndrop a 1\n|column 10: the line has 3 words, and it has to be `drop A I K`
3|3|play|raw 3\nwriter a\nlog a  61\n|column 7: a second space; words stand one space apart
3|7|play|raw 3\nwriter a\ndrop a 4 x\n|column 8: `4` is no I of `drop A I K`: the nodes are 1 to 3
2|7|play|raw 3\ncut 1 1 1 red\n|column 11: `red` is no CHOICE of `cut I J D CHOICE`: it is old, new or a5
3|8|play|raw 3\nwriter a\nlog a 6A\n|column 7: a body has capital letters; its digits are 0 to 9 and a to f
3|9|play|names 3\nname a\nlog a delete /u 1 ; mkdir /u\n|column 21: edit 2: a `mkdir` has 6 words, and here are 2
1|2|node|fly\n|column 1: `fly` begins no line here; these do: state new start journal finalize prepare fetch accept purge read manifest
1|7|node|start 0 1 0 1\n|column 7: `0` is no E of `start E S C M`: it is at least 1
1|8|node|journal 1 2 0 1 1 1\n|column 19: a body has an odd number of digits, 1; a byte has two
TEXT
}

# Lists the cases of known_runs whose answer is a bad line, as `FILE COMMAND LINE RULE`, with their inputs in the room's folder
# `known`.
list_known_lines() {
  mkdir -p "$room/known"
  awk -v folder="$room/known" '
    /^case / { name = substr($0, 6); input = ""; command = ""; is_plain = 1; next }
    FILENAME ~ /stdout$/ { if ($0 ~ /^error BadScript /) { split($0, words, " "); bad[name] = words[3] " " words[4] } next }
    /^words / { command = $2; next }
    $0 == "|" { input = input "\n" }
    /^\| / { input = input substr($0, 3) "\n" }
    /^- / { input = input substr($0, 3) }
    /^(x|lines|times|script|again|file) / { is_plain = 0 }
    /^$/ && is_plain && command ~ /^(play|run|mirror|boot|node)$/ && (name in bad) {
      file = folder "/" ++count
      printf "%s", input >file
      close(file)
      print file, command, bad[name]
      is_plain = 0
    }' "$top/crates/known_runs/stdout" "$top"/crates/known_runs/data/*.cases
}

# Of each bad line among the cases of known_runs the cause is seen, but of edits with a word out of its range, and of no script at
# all.
test_known_lines() {
  list_known_lines >"$room/lines"
  seen=0
  while read -r file command line rule; do
    lacks_end=''
    [ "$(tail -c 1 "$file" | od -An -tx1 | tr -d ' ')" = 0a ] || lacks_end=yes
    found=$(LC_ALL=C awk -v line="$line" -v rule="$rule" -v kind="$command" -v lacks_end=$lacks_end -f "$top/launcher/line.awk" "$file")
    case $rule$found in 1 | 9) continue ;; esac
    [ -n "$found" ] || expect "the cause in line $line of $(cat "$file")" 'none' "one of rule $rule"
    seen=$((seen + 1))
  done <"$room/lines"
  [ "$seen" -ge 50 ] || expect 'bad lines among the cases' "$seen" 'fifty or more'
}

# What is wrong with a frame or an edit, by the bytes from two before it on.
test_damage() {
  while IFS='|' read -r cause bytes said; do
    # shellcheck disable=SC2086
    found=$(printf '%s\n' $bytes | awk -v cause="$cause" -v left=40 -f "$top/launcher/edits.awk" -f "$top/launcher/damage.awk")
    expect "the damage $cause of $bytes" "$found" "$said"
  done <<'TEXT'
Short|0 0 165 0 0 1 0 0 0 0|the frame that begins here has 256 bytes behind its length, and the file ends after 35
Count|0 0 165 0 0 0 12 0 0 0 0 0 0 0 1 0 0 0 0|the frame that begins here tells 0 entries; it has 1 to 16,384
Body|0 0 165 0 0 0 17 0 0 0 0 0 0 0 1 0 0 0 2 0 1 24 0 0 0|in the frame that begins here the entry 2 has 0 bytes; it has 1 to 4,096
Opcode|0 2 25 1|the edit that begins here is of no kind: its first byte is 25, the code of none
Field|0 13 2 0 2 47 32 0 0 0 0 0 0 0 1|the edit that begins here, a DELETE, has a bad path: its byte 1 is 32, which no text has
Field|0 13 2 0 2 47 97 128 0 0 0 0 0 0 1|the edit that begins here, a DELETE, has a bad time: it is above 2^62
Short|0 5 2 0 9 47 97|the edit that begins here, a DELETE, has a bad path: the edit ends inside it
Trailing|0 2 24 1|the edit that begins here, a START_LOG_SEGMENT, has 1 bytes after its last field
TEXT
}

# What is wrong with a listing's text, and with its first bad member.
test_listings() {
  while IFS='|' read -r cause place text said; do
    printf '%b' "$text" >"$room/tree/listing"
    LC_ALL=C awk -v cause="$cause" -v place="$place" -v txid=7 -f "$top/launcher/edits.awk" -f "$top/launcher/listing.awk" \
      <"$room/tree/listing" >"$room/tree/seen"
    expect "what is said of $text" "$(head -n 1 "$room/tree/seen")" "$said"
  done <<'TEXT'
Json|0|{}|line 1, column 1: a listing is an array, which begins with `[`
Json|0||the text ends where a value has to stand
Json|0|[1|the text ends where a comma or ] has to stand
Json|0|[\n{"op":"a"}\n  {"op":"b"}]|line 3, column 3: a comma or ] has to stand here
Json|0|[{"a":1,}]|line 1, column 9: a key in quotes has to stand here
Json|0|[{"a" 1}]|line 1, column 7: a colon has to stand here
Json|0|[{"a":1}}|line 1, column 9: a comma or ] has to stand here
Json|0|[1,]|line 1, column 4: a value has to stand here
Json|0|[1] x|line 1, column 5: something stands behind the end of the array
Json|0|[01]|line 1, column 2: `01` is no value of JSON
Json|0|["a\\x"]|line 1, column 2: the text that begins here has a backslash that begins no escape
Json|0|["a\n"]|line 1, column 2: the text that begins here has a control character, or its end is missing
Json|0|["\\"[]","\\\\"]|
Entry|0|[7]|it is no object, in { and }
Entry|1|[[{}],"x"]|it is no object, in { and }
Entry|0|[{"txid":7}]|it has no `op`
Entry|0|[{"op":"OP_MOVE","txid":7}]|its `op` is that of no kind of edit
Entry|0|[{"op":"OP_END_LOG_SEGMENT"}]|it has no `txid`
Entry|0|[{"op":"OP_DELETE","path":"/f","txid":7}]|it has no `time`
Entry|0|[{"op":"OP_DELETE","path":"/f","time":1,"length":1,"txid":7}]|it has the key `length`, which no DELETE has
Entry|0|[{"op":"OP_DELETE","path":"/f","time":1,"txid":8}]|its `txid` is 8, and here 7 is next
Entry|0|[{"op":"OP_DELETE","path":"/f","time":1,"txid":"7"}]|its `txid` has to be the number 7
Entry|0|[{"op":"OP_DELETE","path":"/f","time":1.0,"txid":7}]|its `time` has to be a number, of digits alone
Entry|0|[{"op":"OP_DELETE","path":"/f","time":4611686018427387905,"txid":7}]|its `time` is above 2^62
Entry|0|[{"op":"OP_SET_REPLICATION","path":"/f","replication":65536,"txid":7}]|its `replication` is above 65,535
Entry|0|[{"op":"OP_DELETE","path":"/a b","time":1,"txid":7}]|its `path` has a space, or another character that no text of an edit has
Entry|0|[{"op":"OP_DELETE","path":3,"time":1,"txid":7}]|its `path` has to be a text, in quotes
Entry|0|[{"group":"g","op":"OP_SET_OWNER","path":"/","txid":7,"user":"012345678901234567890123456789012"}]|its `user` has 33 bytes, and 32 are the most
Entry|0|[{"dst":"/a","op":"OP_RENAME","overwrite":0,"src":"/b","time":1,"txid":7}]|its `overwrite` has to be true or false
Entry|0|[{"op":"OP_CONCAT_DELETE","sources":["/a","b c"],"target":"/t","time":1,"txid":7}]|its `sources` has a bad item: it has a space, or another character that no text of an edit has
Entry|0|[{"atime":1,"lengths":7,"mtime":1,"op":"OP_CLOSE","path":"/f","txid":7}]|its `lengths` has to be an array
Entry|0|[{"callid":1,"clientid":"AA","op":"OP_DELETE","path":"/f","time":1,"txid":7}]|its `clientid` has to be a text of 32 digits, 0 to 9 and a to f
Entry|0|[{"callid":1,"op":"OP_DELETE","path":"/f","time":1,"txid":7}]|it has no `clientid`
Entry|0|[{"callid":1,"clientid":"","op":"OP_END_LOG_SEGMENT","txid":7}]|it has a call, which no END_LOG_SEGMENT has
Entry|0|[{"\\u006fp":1,"txid":7}]|
TEXT
  printf '[\n  {"op": "OP_DELETE", "path": "/%0200d",\n "txid": 7},\n  7]' 1 >"$room/tree/listing"
  LC_ALL=C awk -v cause=Entry -v place=0 -v txid=7 -f "$top/launcher/edits.awk" -f "$top/launcher/listing.awk" <"$room/tree/listing" >"$room/tree/seen"
  expect 'a member that is cut' "$(sed -n 2p "$room/tree/seen")" "$(printf '{"op":"OP_DELETE","path":"/%0200d' 0 | cut -c1-120) .."
}
