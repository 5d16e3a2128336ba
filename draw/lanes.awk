# Two pictures that are no rows: where there is no single order each list has its own lane; of a very long report there are sums alone.

function lanes(    i, a) {
  lowest = 0
  for (i = 1; i <= nodes; i++) draw_history(i, lane_center(i))
  for (a = 1; a <= actor_count; a++) draw_record(a, results_left + (a - 1) * 250)
  results_width = actor_count * 250
  y = lowest + 60
}

function draw_history(i, x,    k) {
  for (k = 1; k <= line_count[i] && k <= maxrows; k++) draw_history_line(i SUBSEP k, i, x, 8 + (k - 1) * 36)
  if (line_count[i] > maxrows) draw(text_at("lo", x, 20 + maxrows * 36, "… " (line_count[i] - maxrows) " more"))
}

function draw_history_line(at, i, x, top,    view) {
  split(line_view[at], view, "|")
  draw(mark_of(view[1] == "ok" ? epoch_class(view[2]) : "k" view[1], \
    fitting("lo", x, top + 11, line_caller[at] " " request_words(line_request[at]), lane_width - 8) \
    "<rect class='pl' x='" (x - lane_width / 2 + 7) "' y='" (top + 14) "' width='" (lane_width - 14) "' height='18' rx='9'/>" \
    fitting("pt", x, top + 27, view[3], lane_width - 22), \
    line_caller[at] " " line_request[at] "\n" line_reply[at] "\nreport line " line_number[at]))
  if (top > lowest) lowest = top
}

function draw_record(a, x,    k) {
  draw(text_at("gh", x + 10, 20, "record of " actor_name[a]))
  for (k = 1; k <= event_count[a] && k <= maxrows * 2; k++) draw_event(a SUBSEP k, x + 10, 24 + k * 16)
}

function draw_event(at, x, top,    class, text, tip) {
  class = "l2"
  text = event_node[at] (event_kind[at] == "l" ? " late" : "") " " request_words(event_request[at]) " → " \
    (is_end_of_log(event_request[at], event_heard[at]) ? "nothing later" : event_heard[at])
  tip = event_request[at] " → " event_heard[at]
  if (event_kind[at] == "r") {
    class = event_request[at] ~ /aborted|limit/ ? "rb" : event_request[at] ~ /inactive|toolong|late/ ? "ri" : "ra"
    text = "= " event_request[at]
    tip = event_request[at]
  }
  draw(mark_of("", fitting(class, x, top, text, 236), tip "\nreport line " event_number[at]))
  if (top > lowest) lowest = top
}

function sums(    i) {
  lowest = 0
  for (i = 1; i <= nodes; i++) draw_sums(i, lane_center(i))
  draw(text_at("gh", 16, 30, "Calls at each node"))
  y = lowest + 10
}

function draw_sums(i, x,    k, words, top) {
  top = 30
  split(tally_words[i], words, ",")
  for (k = 1; k in words; k++) {
    draw(text_at("pt", x, top, words[k] " " tally_count[i, words[k]]))
    top += 16
  }
  if (top > lowest) lowest = top
}
