# The data of the page that one steps through, as JSON: a step for each call, late copy, operator's line and group of equal results, in
# the picture's order of all lists (order.awk) or, where none fits, in that of the states. The reading of the report is the picture's.

END {
  if (is_refused) exit 1
  if (NR == 0) fail("the input is empty")
  if (part != "done") {
    NR = NR + 1
    fail("the report ends before `end`")
  }
  if (is_big) fail("a report of " lines " lines is too long to step through: " maxlines " are the most")
  if (fault != "") fail_states("`./qjm states` says `" fault "` of it; `./qjm judge` shows the line")
  rank_epochs()
  read_states()
  if (is_refused) exit 1
  read_story()
  write_data()
}

function write_data(    i) {
  for (i = 1; i <= nodes; i++)
    if (stated[i] != line_count[i]) fail_states("of node " i " are " (stated[i] + 0) " lines, and not " (line_count[i] + 0))
  is_merged = merge()
  print "{\"title\":" quoted(title) ",\"nodes\":" nodes ",\"names\":" (has_names ? "true" : "false") ",\"lines\":" lines ","
  print "\"note\":" quoted(is_merged ? "" : "No single order fits all lists: " why()) ","
  write_list("actors", actor_name, actor_count)
  write_list("epochs", epoch_order, epoch_count)
  print "\"steps\":["
  if (is_merged) write_rows()
  else write_states()
  print "\n],"
  write_headings()
  if (telling_count) write_story()
  if (has_names) write_edits()
  write_list("texts", text_of, text_count)
  print "\"version\":1}"
}

function write_list(name, texts, many,    k) {
  printf "\"%s\":[", name
  for (k = 1; k <= many; k++) printf "%s%s", (k > 1 ? ",\n" : ""), quoted(texts[k])
  print "],"
}

# A text of JSON. No `<` stands in it, so none ends the script around it.
function quoted(text) {
  gsub(/\\/, "\\\\", text)
  gsub(/"/, "\\\"", text)
  gsub(/</, "\\u003c", text)
  gsub(/[\001-\037\177]/, "?", text)
  return "\"" text "\""
}

# The number of a text in the list of all, from 0 on.
function number_in_texts(text) {
  if (!(text in text_number)) {
    text_number[text] = text_count++
    text_of[text_count] = text
  }
  return text_number[text]
}

# Writes a step: 0 a call, 1 a late copy, 2 the operator's, 3 results (how many stands in place of what was heard).
function write_step(kind, a, i, asked, answer, heard, number, change) {
  printf "%s[%d,%d,%d,%d,%d,%d,%d%s]", (step_count++ ? ",\n" : ""), kind, a - 1, i, asked, answer, heard, number, (change == "" ? "" : "," change)
}

# ## In the order of the picture

function write_rows(    r, group) {
  for (r = 1; r <= row_count; r++) {
    if (row_group[r] != group || row_kind[r] == "o" || row_kind[r] == "l") begin_heading(r)
    group = row_group[r]
    if (row_kind[r] != "n") write_calls(r)
    if (row_first[r]) write_results(row_actor[r], row_first[r], row_last[r])
  }
}

# The calls of a row, in the order of the record.
function write_calls(r,    i, first, last, e, at_node) {
  first = last = 0
  for (i = 1; i <= nodes; i++) {
    if (!((r, i) in cell_event)) continue
    e = cell_event[r, i]
    at_node[e] = i
    if (!first || e < first) first = e
    if (e > last) last = e
  }
  for (e = first; e <= last; e++) {
    i = at_node[e]
    if (i) write_call(row_actor[r], e, i, (r, i) in cell_line ? cell_line[r, i] : 0)
  }
}

function write_call(a, e, i, k,    kind, answer, heard) {
  tell_event(a, e)
  kind = event_kind[a, e] == "c" ? 0 : event_kind[a, e] == "l" ? 1 : 2
  answer = k ? line_reply[i, k] : ""
  heard = kind ? answer : event_heard[a, e]
  write_step(kind, a, i, number_in_texts(event_request[a, e]), k ? number_in_texts(answer) : -1, heard == answer ? -1 : number_in_texts(heard), \
    event_number[a, e], k ? change_of[i, k] : "")
}

# Results in a row that are alike are one step: edits that are acknowledged one after the other, and equal ones.
function write_results(a, first, last,    e, to) {
  for (e = first; e <= last; e = to + 1) {
    to = event_request[a, e] ~ /^acked / ? last_acked(a, e, last) : last_equal(a, e, last)
    tell_event(a, e)
    if (is_merged) begin_result(a, event_request[a, e])
    write_step(3, a, 0, number_in_texts(event_request[a, e]), number_in_texts(event_request[a, to]), to - e + 1, event_number[a, e])
  }
}

# ## In the order of the states

function write_states(    s, a, i, k) {
  for (s = 1; s <= state_count; s++) {
    i = state_node[s]
    a = actor_number[state_caller[s]]
    if (!i) write_unreached(a, state_way[s] == "result" ? "r" : "c")
    else write_moved(a, i, state_line[s], state_way[s])
  }
}

# The next event of an actor's that no node has: a call that was lost, or a result.
function write_unreached(a, kind,    e) {
  for (e = unreached_from[a, kind] + 1; e <= event_count[a]; e++)
    if (event_kind[a, e] == kind && (kind == "r" || event_heard[a, e] == "dropped")) break
  unreached_from[a, kind] = e
  if (kind == "r") write_results(a, e, e)
  else write_call(a, e, event_node[a, e], 0)
}

function write_moved(a, i, k, way) {
  write_step(way == "late" ? 1 : way == "order" ? 2 : 0, a, i, number_in_texts(line_request[i, k]), number_in_texts(line_reply[i, k]), \
    way ~ /^(muted|silent)$/ ? number_in_texts(way) : -1, line_number[i, k], change_of[i, k])
}

# ## What the parts of the run are called

# A script's line begins at the next step.
function begin_heading(r,    text) {
  text = group_name(r)
  if (row_kind[r] == "o") text = "the operator"
  else if (row_kind[r] == "l") text = "a late copy"
  else if (text == actor_name[row_actor[r]]) text = text (row_request[r] ~ /^purge/ ? " purges" : " logs")
  put_heading(text)
}

# So do those of which nothing but a result comes.
function begin_result(a, result) {
  if (result ~ /^checkpoint/) put_heading(actor_name[a] " saves an image")
  if (result ~ /^reload/) put_heading(actor_name[a] " begins anew")
  if (result ~ /^late/) put_heading("a late copy")
}

function put_heading(text) {
  if (heading_step[heading_count] != step_count + 1) heading_count++
  heading_step[heading_count] = step_count + 1
  heading_text[heading_count] = text
}

function write_headings(    k) {
  printf "\"headings\":["
  for (k = 1; k <= heading_count; k++) printf "%s[%d,%s]", (k > 1 ? ",\n" : ""), heading_step[k], quoted(heading_text[k])
  print "],"
}

# ## Edits of name nodes in words

function write_edits(    k, many, each, b, from, written) {
  printf "\"edits\":{"
  for (k = 1; k <= text_count; k++) {
    if (text_of[k] !~ /^(journal|accept) / || text_of[k] ~ / characters\] /) continue
    many = split(text_of[k], each, " ")
    for (b = text_of[k] ~ /^journal/ ? 7 : 6; b <= many; b++) {
      if (each[b] in is_written || length(each[b]) < 7) continue
      is_written[each[b]] = 1
      printf "%s%s:%s", (written++ ? ",\n" : ""), quoted(each[b]), quoted(edit_words(each[b]))
    }
  }
  print "},"
}
