# The last part: what the nodes hold at the end, a line for each start, a bar for each node that has it.

function ends(    i, k, first) {
  is_hidden = 0
  for (i = 1; i <= nodes; i++) if (down_from[i] != "") span(i, down_from[i], y + 26)
  y += 12
  draw(text_at("gh", 16, y + 14, "At the end") text_at("l2", 16, y + 30, "computed from the histories"))
  for (i = 1; i <= nodes; i++)
    draw(text_at("pt", lane_center(i), y + 14, "node " i ", " (up[i] ? "up" : "down")) \
      fitting("lo", lane_center(i), y + 28, "promised " promised[i], lane_width - 8) \
      fitting("lo", lane_center(i), y + 41, "committed " committed[i], lane_width - 8))
  y += 48
  list_starts()
  first = start_count > 40 ? start_count - 39 : 1
  if (start_count == 0) say_of_segments("no node holds a segment")
  if (first > 1) say_of_segments((first - 1) " earlier segments aren't drawn")
  for (k = first; k <= start_count; k++) draw_segment(start_order[k])
  y += 8
}

function say_of_segments(text) {
  draw(text_at("l2", 16, y + 12, text))
  y += 20
}

# The starts of all nodes' segments, rising: start_order[1 ..].
function list_starts(    i, k) {
  for (i = 1; i <= nodes; i++) for (k = 1; k <= segment_count[i]; k++) list_start(segment_start[i, k])
}

function list_start(m,    k) {
  if (m in is_listed) return
  is_listed[m] = 1
  for (k = start_count++; k >= 1 && compare(start_order[k], m) > 0; k--) start_order[k + 1] = start_order[k]
  start_order[k + 1] = m
}

function draw_segment(m,    i, most) {
  most = 1
  for (i = 1; i <= nodes; i++) if ((i, m) in segment_epoch && segment_edits[i, m] > most) most = segment_edits[i, m]
  draw(fitting("l1", 28, y + 15, "segment " m, 226))
  for (i = 1; i <= nodes; i++) {
    if ((i, m) in segment_epoch) draw_bar(i, m, most)
    else draw(text_at("lo", lane_center(i), y + 15, "–"))
  }
  y += 24
}

function draw_bar(i, m, most,    wide, class, text) {
  wide = int((lane_width - 14) * segment_edits[i, m] / most)
  class = is_final[i, m] ? "sf" : is_accepted[i, m] ? "sa" : "sp"
  text = range(m, segment_end(i, m)) (is_final[i, m] ? " final" : is_accepted[i, m] ? " accepted" : " in progress")
  if (segment_edits[i, m] == 0) text = "begun, empty"
  draw(mark_of(epoch_class(segment_epoch[i, m]), "<rect class='" class "' x='" (lane_center(i) - lane_width / 2 + 7) "' y='" (y + 2) \
    "' width='" (wide < 3 ? 3 : wide) "' height='18' rx='2'/>" fitting("pt", lane_center(i), y + 15, text, lane_width - 18), \
    "node " i ": segment " m ", " text ", " count(segment_edits[i, m], "edit") ", header epoch " segment_epoch[i, m]))
}
