# The lines of `qjm states`, as the page wants them: the one place that knows their format. The file `states` has a line of JSON for
# each line of the nodes' histories, and for each line of a record that reached no node.
#
# state_count lines; of line s state_caller[s], state_way[s], state_node[s] (0 where no node has it) and state_line[s], its line in that
# node's history. Of line k of node i change_of[i, k]: what it changed, as the page's data has it, or nothing.

function read_states(    line, got) {
  while ((got = (getline line < states)) > 0) {
    if (line !~ /^\{"event":0,/) take_state(line)
  }
  if (got < 0) fail_states("the states can't be read")
}

function take_state(line,    s, i) {
  s = ++state_count
  state_caller[s] = member(line, "caller")
  state_way[s] = member(line, "way")
  i = state_node[s] = state_way[s] == "result" || state_way[s] == "dropped" ? 0 : member(line, "node") + 0
  if (!i) return
  state_line[s] = ++stated[i]
  if (caller_in_history(i, stated[i]) != state_caller[s]) fail_states("event " s " isn't line " stated[i] " of node " i)
  if (index(line, "\"state\":{")) change_of[i, stated[i]] = change_in(i, substr(line, index(line, "\"state\":{")))
}

function caller_in_history(i, k,    caller) {
  caller = line_caller[i, k]
  sub(/ late$/, "", caller)
  return caller
}

# The value of the first member of that name: a number, a word, or a list without its brackets; nothing where there is none.
function member(text, name,    at) {
  at = index(text, "\"" name "\":")
  if (!at) return ""
  text = substr(text, at + length(name) + 3)
  if (!match(text, /^("[^"]*"|\[[^]]*\]|[a-z0-9-]+)/)) return ""
  text = substr(text, 1, RLENGTH)
  return text ~ /^["[]/ ? substr(text, 2, RLENGTH - 2) : text
}

# What of node i is other than before: the members p promised, w writer, c committed, o the open segment (0 for none), u up, s a segment
# as its start, end, header epoch and kind, d the starts of segments that were removed.
function change_in(i, text,    change, segment) {
  change = differing(i, "p", number_of(text, "promised")) differing(i, "w", number_of(text, "writer")) \
    differing(i, "c", number_of(text, "committed")) differing(i, "o", open_of(text)) differing(i, "u", member(text, "up") == "true" ? 1 : 0)
  if (index(text, "\"segment\":{")) {
    segment = substr(text, index(text, "\"segment\":{"))
    change = change ",\"s\":[" number_of(segment, "start") "," end_of(segment) "," number_of(segment, "epoch") ",\"" \
      (member(segment, "final") == "true" ? "f" : member(segment, "accepted") == "true" ? "a" : "p") "\"]"
  }
  if (member(text, "removed") != "") change = change ",\"d\":[" quoted_numbers(member(text, "removed")) "]"
  return change == "" ? "" : "{" substr(change, 2) "}"
}

function differing(i, name, value) {
  if (value == shown_value(i, name)) return ""
  node_value[i, name] = value
  return ",\"" name "\":" value
}

# A fresh node has promised nothing, has no open segment, and is up.
function shown_value(i, name) { return (i, name) in node_value ? node_value[i, name] : name == "u" ? 1 : 0 }

function open_of(text) { return member(text, "open") == "-1" ? 0 : number_of(text, "open") }

# The end of a segment without an edit is before its start, so of the segment 0 it is below 0.
function end_of(segment) { return member(segment, "end") == "-1" ? "\"-1\"" : number_of(segment, "end") }

# A number above 2^53 is a text to JavaScript.
function number_of(text, name,    value) {
  value = member(text, name)
  return length(value) > 15 ? "\"" value "\"" : value
}

function quoted_numbers(list,    each, many, k, text) {
  many = split(list, each, ",")
  for (k = 1; k <= many; k++) text = text (k > 1 ? "," : "") "\"" each[k] "\""
  return text
}

function fail_states(text) {
  printf "qjm: draw: no states come of this report: %s\n", text | "cat 1>&2"
  close("cat 1>&2")
  is_refused = 1
  exit 1
}
