# Quiet stretches of a long picture: script lines one after the other, of which every call was answered and heard, and whose results
# say no more than that it goes on. Each stretch is drawn as one row. fold_to[row] is the last row of the stretch that a row begins.

# The fewest rows that are folded.
BEGIN { foldleast = 6 }

function fold(    v, last, kept, k, rows_kept) {
  if (!foldrows || shown_count <= foldrows) return
  for (v = 1; v <= shown_count; v = last + 1) {
    last = end_of_quiet(v)
    if (last - v + 1 >= foldleast) {
      folded_count++
      rows_kept[++kept] = shown_row[v]
      fold_to[shown_row[v]] = run_end[shown_row[last]]
    } else for (k = v; k <= last; k++) rows_kept[++kept] = shown_row[k]
  }
  for (k = 1; k <= kept; k++) shown_row[k] = rows_kept[k]
  shown_count = kept
}

# The last shown row of the quiet groups from shown row v on; v itself where its group isn't quiet or began before.
function end_of_quiet(v,    last, found) {
  last = v
  while (v <= shown_count && (found = end_of_quiet_group(v))) {
    last = found
    v = found + 1
  }
  return last
}

# The last shown row of the group that shown row v begins, where all of it is quiet; else 0.
function end_of_quiet_group(v,    group) {
  group = row_group[shown_row[v]]
  if (v > 1 && row_group[shown_row[v - 1]] == group) return 0
  while (is_quiet(shown_row[v])) {
    if (v == shown_count || row_group[shown_row[v + 1]] != group) return v
    v++
  }
  return 0
}

function is_quiet(r,    i, e, a) {
  a = row_actor[r]
  if (row_kind[r] != "c" && row_kind[r] != "n") return 0
  for (i = 1; i <= nodes; i++)
    if ((r, i) in cell_event && !is_quiet_call(event_request[a, cell_event[r, i]], event_heard[a, cell_event[r, i]])) return 0
  if (row_first[r])
    for (e = row_first[r]; e <= row_last[r]; e++)
      if (event_request[a, e] !~ /^(acked|roll|close|tail|checkpoint|trim) [0-9]+$/ && event_request[a, e] != "purge ok") return 0
  return 1
}

function is_quiet_call(request, heard) {
  return heard !~ /^(dropped|muted|silent|refused)/ || is_end_of_log(request, heard)
}

# The one row of a stretch: how much is in it, and where it stands in the report.
function draw_fold(first, last,    i, lines_of) {
  count_folded(first, last)
  lines_of = "report lines " folded_from " to " folded_until " of the records"
  draw(mark_of("", fitting("l1", 16, y + 15, "… quiet: " count(last - first + 1, "round"), 240) fitting("l2", 16, y + 29, lines_of, 240), \
    lines_of "\nevery call was answered and heard; ./qjm draw --whole draws each"))
  for (i = 1; i <= nodes; i++) draw(text_at("lo", lane_center(i), y + 22, "…"))
  piece_count = 0
  if (folded["acked"]) piece("ra", "✓ " count(folded["acked"], "edit") " acked, " range(folded_first, folded_last))
  if (folded_words != "") piece("rt", "✓" folded_words)
  draw_pieces(0)
  if (!is_hidden) y += 44
}

# Counts the results of a stretch by their first words, and finds its first and last line and edit.
function count_folded(first, last,    r, a, e, i, words, word, k, known) {
  split("", folded)
  folded_first = folded_last = folded_words = folded_from = folded_until = ""
  for (r = first; r <= last; r++) {
    a = row_actor[r]
    for (i = 1; i <= nodes; i++) if ((r, i) in cell_event) note_line(event_number[a, cell_event[r, i]])
    for (e = row_first[r]; e && e <= row_last[r]; e++) count_result(a, e)
  }
  split("roll close tail checkpoint trim purge", words, " ")
  for (k = 1; k in words; k++) {
    word = words[k]
    if (folded[word]) folded_words = folded_words (folded_words == "" ? " " : ", ") count(folded[word], word == "checkpoint" ? "image" : word)
  }
}

function count_result(a, e,    words) {
  note_line(event_number[a, e])
  split(event_request[a, e], words, " ")
  folded[words[1]]++
  if (words[1] != "acked") return
  if (folded_first == "") folded_first = words[2]
  folded_last = words[2]
}

function note_line(number) {
  if (folded_from == "" || number < folded_from) folded_from = number
  if (number > folded_until) folded_until = number
}
