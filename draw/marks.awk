# One node's mark in a row: what it answered, and what became of the answer.

function mark(r, i, rounds, is_best,    a, e) {
  a = row_actor[r]
  e = cell_event[r, i]
  if (event_heard[a, e] == "dropped") draw_lost(a, e, i)
  else draw_answer(r, i, a, e, i SUBSEP cell_line[r, i], rounds, is_best)
}

# The words of a mark's tooltip: whose call it is.
function call_tip(a, e, i) {
  return actor_name[a] " → node " i ": " (event_kind[a, e] == "l" ? "late copy of " : "") event_request[a, e] "\n"
}

function draw_lost(a, e, i,    x) {
  x = lane_center(i)
  draw(mark_of("", "<path class='ar cutl' d='M" x " " (y + 9) "v7'/><path class='x' d='M" (x - 5) " " (y + 15) "l10 8m0 -8l-10 8'/>" \
    text_at("lost", x, y + 35, "lost on the way") \
    "<rect class='hit' x='" (x - lane_width / 2 + 6) "' y='" (y + 9) "' width='" (lane_width - 12) "' height='28'/>", \
    call_tip(a, e, i) "dropped: it never reached the node\nreport line " event_number[a, e]))
}

function draw_answer(r, i, a, e, at, rounds, is_best,    view, class, text, tip) {
  split(line_view[at], view, "|")
  class = view[1] == "ok" ? epoch_class(view[2]) : "k" view[1]
  text = view[3]
  tip = call_tip(a, e, i) "node " i ": " line_reply[at] "\n" heard_tip(a, e, at) "report lines " line_number[at] " and " event_number[a, e]
  if (differs(a, e, at)) {
    class = "kbad"
    text = "≠ record and history"
    differing_count++
  }
  is_best = is_best && view[1] == "ok" && row_request[r] ~ /^prepare/
  if (rounds > 1 && view[1] == "ok") text = "✓ … " substr(text, length("✓ ") + 1)
  if (is_best) text = "★ " text
  if (row_kind[r] == "o") draw(mark_of(class, pill("", i, y + 4, text), tip))
  else
    draw(arrow(i, request_epoch(row_request[r])) \
      mark_of(class, pill(event_heard[a, e] == "muted" ? " mu" : is_best ? " best" : "", i, y + 17, text) below(a, e, i), tip))
  if (view[1] == "kill") down(i, y + 22)
  if (view[1] == "stop") down(i, y + 35)
  if (view[1] == "rise") rise(i, y + 4)
}

# What the caller heard, where that isn't the node's answer.
function heard_tip(a, e, at,    heard) {
  heard = event_heard[a, e]
  if (event_kind[a, e] == "l") return "the reply goes to nobody\n"
  if (event_kind[a, e] != "c" || heard == line_reply[at]) return ""
  if (heard == "muted") return actor_name[a] " heard nothing: the reply was lost\n"
  if (heard == "silent") return actor_name[a] " heard nothing\n"
  return actor_name[a] " heard: " heard "\n"
}

# The record has another answer than the history.
function differs(a, e, at,    heard) {
  heard = event_heard[a, e]
  if (event_kind[a, e] == "l" || heard == line_reply[at]) return 0
  if (event_kind[a, e] == "o" || heard != "muted" && heard != "silent") return 1
  return heard == "silent" && line_reply[at] !~ /^(stopped|not opened)/
}

function arrow(i, epoch_asked,    x) {
  x = lane_center(i)
  return "<g class='" epoch_class(epoch_asked) "'><path class='ar' d='M" x " " (y + 8) "v4'/><path class='hd' d='M" (x - 4) " " (y + 11) \
    "h8l-4 6z'/></g>"
}

function pill(more, i, top, text) {
  return "<rect class='pl" more "' x='" (lane_center(i) - lane_width / 2 + 6) "' y='" top "' width='" (lane_width - 12) \
    "' height='18' rx='9'/>" fitting("pt", lane_center(i), top + 13, text, lane_width - 22)
}

# What stands below the answer.
function below(a, e, i,    x) {
  x = lane_center(i)
  if (event_kind[a, e] == "l") return text_at("lo", x, y + 46, "nobody waits for this")
  if (event_heard[a, e] != "muted") return ""
  return "<path class='x' d='M" (x - 42) " " (y + 39) "l8 6m0 -6l-8 6'/>" text_at("lost", x, y + 46, "reply lost")
}

# ## Nodes that are down have a grey lane

function down(i, from) { if (down_from[i] == "") down_from[i] = from }

function rise(i, to) {
  if (down_from[i] == "") return
  span(i, down_from[i], to)
  down_from[i] = ""
}

function span(i, from, to) {
  if (is_hidden) return
  shade[++shade_count] = sprintf("<rect class='down' x='%d' y='%d' width='%d' height='%d'/>", \
    lane_center(i) - lane_width / 2 + 3, from, lane_width - 6, (to - from > 2 ? to - from : 2))
}
