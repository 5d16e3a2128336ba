# One order of all lists: the K-th delivered call of an actor at a node is the K-th line of that actor in the node's history. Among the
# orders that this allows whole script lines are kept together where possible, else whole rounds, else single calls.
#
# Rows: row_kind (c a round, l a late copy, o the operator's, n results alone), row_actor, row_request, row_group, row_first and
# row_last its results; cell_event[row, node] the event there, cell_line[row, node] its line in the history.

# Puts all events into rows. Answers whether there is an order.
function merge(    i, last, now) {
  for (i = 1; i <= nodes; i++) next_line[i] = 1
  for (i = 1; i <= actor_count; i++) next_event[i] = 1
  last = 1
  while (is_left()) {
    now = find_next(last)
    if (!now) return 0
    take(now, next_event[now], taken_to)
    next_event[now] = taken_to + 1
    if (actor_name[now] != "ops") last = now # the operator's lines come as late as they can
  }
  for (i = 1; i <= nodes; i++) if (next_line[i] <= line_count[i]) return 0
  return 1
}

function is_left(    a) {
  for (a = 1; a <= actor_count; a++) if (next_event[a] <= event_count[a]) return 1
  return 0
}

# The actor whose next events come next, up to taken_to; the last one first, and large pieces first. 0 where there is none.
function find_next(last,    size, k, a) {
  for (size = 1; size <= 3; size++) {
    for (k = 0; k <= actor_count; k++) {
      a = k ? k : last
      if (!a || next_event[a] > event_count[a]) continue
      taken_to = end_of_piece(size, a, next_event[a])
      if (ready(a, next_event[a], taken_to)) return a
    }
  }
  return 0
}

function end_of_piece(size, a, e) { return size == 1 ? group_end(a, e) : size == 2 ? round_end(a, e) : e }

# Whether the events from..to of actor a come next at their nodes.
function ready(a, from, to,    e, at, ahead) {
  split("", ahead)
  for (e = from; e <= to; e++) {
    at = a SUBSEP e
    if (event_kind[at] == "r" || event_heard[at] == "dropped") continue
    if (!fits(a, e, next_line[event_node[at]] + ahead[event_node[at]])) return 0
    ahead[event_node[at]]++
  }
  return 1
}

# Whether event e of actor a is line k of its node.
function fits(a, e, k,    at, line) {
  at = a SUBSEP e
  line = event_node[at] SUBSEP k
  return (line in line_caller) && line_caller[line] == actor_name[a] (event_kind[at] == "l" ? " late" : "") && line_request[line] == event_request[at]
}

# Where the events of a script's line end.
function group_end(a, e) {
  if (event_kind[a, e] == "o" || event_kind[a, e] == "l") return e
  while (e <= event_count[a] && event_kind[a, e] == "c") e++
  if (e <= event_count[a] && event_kind[a, e] == "l") return e - 1
  while (e <= event_count[a] && event_kind[a, e] == "r") e++
  return e - 1
}

# Where a round's calls, or the results in a row, end.
function round_end(a, e,    request) {
  if (event_kind[a, e] != "c") {
    if (event_kind[a, e] == "r") {
      while (event_kind[a, e + 1] == "r" && e < event_count[a]) e++
    }
    return e
  }
  request = event_request[a, e]
  while (e < event_count[a] && event_kind[a, e + 1] == "c" && event_request[a, e + 1] == request && event_node[a, e + 1] > event_node[a, e]) {
    e++
  }
  return e
}

function row(what, a, request) {
  row_count++
  row_kind[row_count] = what
  row_actor[row_count] = a
  row_request[row_count] = request
  row_group[row_count] = group_count
  row_first[row_count] = 0
  return row_count
}

# Takes the events from..to of actor a into rows.
function take(a, from, to,    e, last) {
  if (!(group_actor == a && group_is_open)) {
    group_actor = a
    group_is_open = 0
    is_continued[++group_count] = is_halfway[a]
  }
  for (e = from; e <= to; e = last + 1) {
    last = round_end(a, e)
    if (last > to) last = to
    if (event_kind[a, e] == "r") take_results(a, e, last)
    else take_calls(a, e, last)
  }
  is_halfway[a] = group_is_open && to < event_count[a] && event_kind[a, to + 1] != "l"
}

function take_results(a, first, last) {
  if (!group_is_open) row("n", a, "")
  row_first[row_count] = first
  row_last[row_count] = last
  group_is_open = 0
}

function take_calls(a, first, last,    e, i) {
  if (event_kind[a, first] != "o" || !goes_on(a, event_node[a, first])) row(event_kind[a, first], a, event_request[a, first])
  group_is_open = event_kind[a, first] == "c"
  for (e = first; e <= last; e++) {
    i = event_node[a, e]
    cell_event[row_count, i] = e
    if (event_heard[a, e] != "dropped") cell_line[row_count, i] = next_line[i]++
  }
}

# An operator's line goes into the row before where that is the operator's and has nothing at the node.
function goes_on(a, i) {
  return row_count && row_kind[row_count] == "o" && row_actor[row_count] == a && !((row_count, i) in cell_event)
}

# Why there is no single order: the first call that doesn't come next where it is wanted.
function why(    i, a, e, text) {
  for (i = 1; i <= nodes && text == ""; i++) if (next_line[i] <= line_count[i]) text = why_not_line(i)
  for (a = 1; a <= actor_count; a++)
    for (e = next_event[a]; e <= event_count[a] && text == ""; e++)
      if (event_kind[a, e] != "r" && event_heard[a, e] != "dropped") text = why_not_event(a, e, event_node[a, e])
  return text
}

# A history line that its caller's record doesn't have next.
function why_not_line(i,    at, caller, a, e, wanted) {
  at = i SUBSEP next_line[i]
  caller = line_caller[at]
  sub(/ late$/, "", caller)
  if (!(caller in actor_number))
    return "node " i "'s history has a call of " caller " (line " line_number[at] "), who has no record"
  a = actor_number[caller]
  for (e = next_event[a]; e <= event_count[a]; e++)
    if (event_kind[a, e] != "r" && event_node[a, e] == i && event_heard[a, e] != "dropped") break
  if (e <= event_count[a] && fits(a, e, next_line[i])) return ""
  wanted = e > event_count[a] ? "nothing more there" : \
    "`" (event_kind[a, e] == "l" ? "late " : "") shorten(event_request[a, e], 60) "` next there (line " event_number[a, e] ")"
  return "node " i "'s history goes on with `" line_caller[at] " " shorten(line_request[at], 60) "` (line " line_number[at] \
    "), but " caller "'s record has " wanted
}

# An event that isn't the next line of its node.
function why_not_event(a, e, i,    at, there) {
  if (fits(a, e, next_line[i])) return ""
  at = i SUBSEP next_line[i]
  there = next_line[i] > line_count[i] ? "nothing" : \
    "`" line_caller[at] " " shorten(request_words(line_request[at]), 60) "` (line " line_number[at] ")"
  return "the lists wait for one another: " actor_name[a] "'s next call at node " i " is `" \
    shorten(request_words(event_request[a, e]), 60) "` (line " event_number[a, e] "), but that node's history goes on with " there
}

# Which rows are drawn as one: run_end[r] is the last row of the run that r begins.
function plan(    r, last) {
  for (r = 1; r <= row_count; r = last + 1) {
    last = end_of_run(r)
    if (last - r + 1 < collapse) show_each(r, last)
    else show(r, last)
  }
}

# The last of the rows from r on that are alike.
function end_of_run(r,    signature) {
  signature = round_signature(r)
  while (signature != "" && r < row_count && round_signature(r + 1) == signature) r++
  return r
}

function show_each(first, last,    r) {
  for (r = first; r <= last; r++) show(r, r)
}

function show(first, last) {
  run_end[first] = last
  shown_row[++shown_count] = first
}

# What a log round has in common with others like it; nothing where it is to be drawn alone.
function round_signature(r,    a, i, e, signature, words) {
  if (row_kind[r] != "c" || !row_first[r] || row_request[r] !~ /^journal /) return ""
  if (row_group[r] == row_group[r - 1] || row_group[r] == row_group[r + 1]) return ""
  a = row_actor[r]
  for (e = row_first[r]; e <= row_last[r]; e++) if (event_request[a, e] !~ /^acked /) return ""
  split(row_request[r], words, " ")
  signature = a " " words[2] " " words[5]
  for (i = 1; i <= nodes; i++) signature = signature " " cell_signature(r, i)
  return signature ~ /silent|stopped/ ? "" : signature
}

function cell_signature(r, i) {
  if (!((r, i) in cell_event)) return "-"
  if (!((r, i) in cell_line)) return event_heard[row_actor[r], cell_event[r, i]]
  return event_heard[row_actor[r], cell_event[r, i]] "/" line_reply[i, cell_line[r, i]]
}

# The node from which the fetches behind a row of prepares take the edits; 0 for none.
function best_node(r,    i, best, other) {
  if (row_request[r] !~ /^prepare/) return 0
  for (other = r + 1; other <= row_count && row_group[other] == row_group[r] && row_request[other] ~ /^fetch/; other++) {
    best = 0
    for (i = 1; i <= nodes; i++) {
      if ((other, i) in cell_line) best = i
    }
  }
  return best + 0
}
