# The rows of the picture: what is asked on the left, the writer's dot and its line to the nodes, each node's answer, the results.
# `y` is where the next row stands; what is hidden isn't drawn and takes no room.

function rows(    v, group) {
  y = 8
  hidden_from = shown_count > maxrows ? int(maxrows * 2 / 3) + 1 : shown_count + 1
  hidden_to = shown_count - (maxrows - int(maxrows * 2 / 3))
  for (v = 1; v <= shown_count; v++) {
    if (v == hidden_from) hide_rows()
    if (is_hidden && v > hidden_to) {
      is_hidden = 0
      group = 0
    }
    if (row_group[shown_row[v]] != group) {
      group = row_group[shown_row[v]]
      if (shown_row[v] in fold_to) end_group()
      else begin_group(shown_row[v], group)
    }
    if (shown_row[v] in fold_to) draw_fold(shown_row[v], fold_to[shown_row[v]])
    else draw_row(shown_row[v], run_end[shown_row[v]])
  }
  end_group()
}

function hide_rows(    first) {
  end_group()
  first = int(maxrows * 2 / 3)
  draw(text_at("gap", 14, y + 24, "… " (shown_count - maxrows) " rows are left out here: the picture has its first " first \
    " and its last " (maxrows - first) " rows …"))
  y += 40
  is_hidden = 1
}

# Rows of one script line stand in a frame, where they are several or a takeover.
function begin_group(r, group,    q) {
  end_group()
  q = row_request[r]
  if (row_kind[r] != "c" || row_group[r + 1] != group && q ~ /^(journal|purge)/) return
  if (!is_hidden) y += 6
  in_group = 1
  group_top = y
  group_class = class_of_group(r)
  draw("@")
  group_mark = drawn_count
  draw(fitting("gh", 16, y + 17, group_name(r), lanes_left - 20))
  if (!is_hidden) y += 22
}

function class_of_group(r,    r2) {
  for (r2 = r; r2 <= row_count && row_group[r2] == row_group[r]; r2++)
    if (request_epoch(row_request[r2]) != "") return epoch_class(request_epoch(row_request[r2]))
  return "e9"
}

function end_group(    size) {
  if (!in_group) return
  in_group = 0
  size = "' height='" (y - group_top) "' rx='"
  if (drawn[group_mark] == "@")
    drawn[group_mark] = "<g class='" group_class "'><rect class='gf' x='6' y='" group_top "' width='" (results_left - 6) size \
      "5'/><rect class='gs' x='6' y='" group_top "' width='4" size "2'/></g>"
  if (!is_hidden) y += 8
}

# Draws row r, or the run of alike rows r to last.
function draw_row(r, last,    rounds, a, height) {
  rounds = last - r + 1
  a = row_actor[r]
  height = row_kind[r] == "c" ? 40 : row_kind[r] == "l" ? 53 : row_kind[r] == "o" ? 27 : 20
  piece_count = 0
  if (rounds > 1) run_piece(event_request[a, row_first[r]], event_request[a, row_last[last]], rounds)
  else if (row_first[last]) pieces(a, row_first[r], row_last[last])
  cut_pieces()
  draw_asked(r, last, rounds, a)
  draw_line(r, rounds, a)
  draw_answers(r, last, rounds)
  if (has_lost_reply(last, a)) height = 53
  draw_pieces(row_kind[r] == "n")
  if (piece_count * 15 + 6 > height) height = piece_count * 15 + 6
  if (!is_hidden) y += height
}

# What is asked.
function draw_asked(r, last, rounds, a,    q) {
  q = row_request[r]
  if (row_kind[r] == "c") draw_round(r, last, rounds, a, q)
  else if (row_kind[r] == "l")
    draw(mark_of("", fitting("l1", 16, y + 15, "late copy: " request_words(q), 240) \
      fitting("l2", 16, y + 29, "an old call of " actor_name[a] " arrives again", 240), q))
  else if (row_kind[r] == "o") draw(fitting("op", 16, y + 17, operator_words(r), lanes_left - 20))
  else draw(text_at("l2", 16, y + 15, actor_name[a]))
}

function draw_round(r, last, rounds, a, q,    what, hint, tip, left) {
  what = request_words(q)
  hint = request_hint(q)
  tip = q
  left = in_group ? 28 : 16
  if (!in_group && hint == "" && q ~ /^journal/) hint = shorten(has_names ? edits_words(words_after(q, 6)) : words_after(q, 6), 34)
  if (!in_group) {
    sub(/^journal/, actor_name[a] " logs", what)
    sub(/^purge/, actor_name[a] " purges", what)
  }
  if (rounds > 1) {
    what = actor_name[a] " logs " words_after(event_request[a, row_first[r]], 1) " to " words_after(event_request[a, row_last[last]], 1)
    hint = rounds " rounds alike, " count(count_results(r, last), "edit")
    tip = "first: " q "\nlast: " row_request[last] "\nreport lines " event_number[a, row_first[r] - 1] \
      " to " event_number[a, row_last[last]]
  }
  draw(mark_of(epoch_class(request_epoch(q)), fitting("l1", left, y + 15, what, 254 - left) \
    fitting("l2", left, y + 29, hint, 254 - left), tip))
}

function count_results(r, last,    found) {
  for (; r <= last; r++) found += row_last[r] - row_first[r] + 1
  return found
}

# The actor's dot, and the line to the farthest node.
function draw_line(r, rounds, a,    x, class, far, i) {
  x = actor_center(a)
  for (i = 1; i <= nodes; i++) if ((r, i) in cell_event) far = i
  class = "<g class='" epoch_class(request_epoch(row_request[r])) "'>"
  if (row_kind[r] == "n") draw(saves_image(r, a) ? "<rect class='im' x='" (x - 5) "' y='" (y + 4) "' width='10' height='12' rx='1'/>" : dot("nd", x, y + 10, 3.5))
  if (row_kind[r] != "c" && row_kind[r] != "l") return
  draw(class "<path class='bus" (row_kind[r] == "l" ? " lt" : "") "' d='M" x " " (y + 8) "H" lane_center(far) "'/>" \
    dot("dot", x, y + 8, 4.5) "</g>")
  if (rounds > 1) draw(class dot("dot", x, y + 17, 3) dot("dot", x, y + 24, 2) "</g>")
}

# Whether a row of results has a saved image.
function saves_image(r, a,    e) {
  for (e = row_first[r]; e <= row_last[r]; e++) if (event_request[a, e] ~ /^checkpoint/) return 1
  return 0
}

function draw_answers(r, last, rounds,    i, best) {
  best = best_node(r)
  for (i = 1; i <= nodes; i++) {
    if ((last, i) in cell_event) mark(last, i, rounds, i == best)
    else if (row_kind[r] == "c" && row_request[r] ~ /^(journal|finalize)/) draw(text_at("lo", lane_center(i), y + 30, "left out"))
  }
}

function has_lost_reply(r, a,    i) {
  for (i = 1; i <= nodes; i++) if ((r, i) in cell_event && event_heard[a, cell_event[r, i]] == "muted") return 1
  return 0
}

function draw_pieces(is_alone,    k, top) {
  top = y + (is_alone ? 15 : piece_count > 1 ? 15 : 20)
  for (k = 1; k <= piece_count; k++) {
    draw(text_at(piece_class[k], results_left + 10, top + (k - 1) * 15, escape(piece_text[k])))
    if (width(piece_text[k]) * 7 > results_width && !is_hidden) results_width = int(width(piece_text[k]) * 7)
  }
}
