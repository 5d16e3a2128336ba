# What came of a script's line, in the words of the pictures (draw/*.awk reads the report): the calls and results that a report has
# beyond the one before it, the file `before`. With `plain` no character is outside of ASCII.

END {
  if (is_refused) exit 1
  count_before()
  for (i = 1; i <= nodes; i++) next_line[i] = seen["node " i] + 1
  for (a = 1; a <= actor_count; a++) write_new(a)
}

# How many lines each list had before.
function count_before(    line, list) {
  while ((getline line < before) > 0) {
    if (line ~ /^(node|actor) /) list = line
    else if (line != "end" && line !~ /^(position [0-9]|\. \/)/) seen[list]++
  }
}

function write_new(a,    e, last) {
  for (e = seen["actor " actor_name[a]] + 1; e <= event_count[a]; e = last + 1) {
    last = round_end(a, e)
    if (event_kind[a, e] == "r") write_results(a, e, last)
    else write_round(a, e, last)
  }
}

function write_results(a, first, last,    k) {
  pieces(a, first, last)
  for (k = 1; k <= piece_count; k++) write("    " piece_text[k])
}

# A round: what is asked, and the nodes by what became of it.
function write_round(a, first, last,    e, i, text, texts, at_nodes, told_at, k, answers) {
  split("", at_nodes)
  for (e = first; e <= last; e++) {
    i = event_node[a, e]
    text = came_of(a, e, i)
    if (!(text in at_nodes)) told_at[++texts] = text
    at_nodes[text] = at_nodes[text] " " i
  }
  for (k = 1; k <= texts; k++) {
    i = at_nodes[told_at[k]]
    answers = answers (k > 1 ? "; " : "") (i ~ / .* / ? "nodes" : "node") i ": " told_at[k]
  }
  text = asked_words_of(a, first)
  while (width(text) < 48) text = text " "
  write("    " text "  " answers)
}

function asked_words_of(a, e,    request, hint) {
  request = event_request[a, e]
  if (event_kind[a, e] == "o") return "operator"
  if (event_kind[a, e] == "l") return "late copy: " request_words(request)
  hint = request ~ /^read/ ? "" : request_hint(request)
  if (hint == "" && has_names && request ~ /^journal/) hint = edits_words(words_after(request, 6))
  return request_words(request) (hint == "" ? "" : ", " hint)
}

# What became of a call at its node.
function came_of(a, e, i,    view, heard) {
  heard = event_heard[a, e]
  if (heard == "dropped") return "✕ lost on the way"
  split(line_view[i, next_line[i]++], view, "|")
  return view[3] (heard == "muted" ? ", but the reply is lost" : "")
}

function write(text) {
  if (plain) {
    gsub(/✓/, "+", text)
    gsub(/✕/, "x", text)
    gsub(/–/, "-", text)
    gsub(/★/, "*", text)
    gsub(/…/, "..", text)
    gsub(/≠/, "!=", text)
  }
  print text
}
