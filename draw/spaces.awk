# What the name nodes hold at the end: how far each has replayed the log, and its namespace; and edits in words.

function spaces(    a) {
  draw(text_at("gh", 16, y + 14, "Namespaces at the end"))
  y += 24
  for (a = 1; a <= actor_count; a++) if (a in position_of) draw_space(a)
  y += 8
}

function draw_space(a,    k, shown) {
  draw(text_at("l1", 28, y + 13, escape(actor_name[a]) ", replayed to txid " position_of[a] ": " count(space_rows[a], "row")))
  y += 20
  shown = is_big ? 0 : space_rows[a] > 40 ? 40 : space_rows[a]
  for (k = 1; k <= shown; k++) {
    draw(text_at("sr", 44, y + 11, escape(row_words(space_row[a, k]))))
    y += 15
  }
  if (shown < space_rows[a]) {
    draw(text_at("l2", 44, y + 11, "… " (space_rows[a] - shown) " more"))
    y += 15
  }
  y += 6
}

# A row in words: its letters, owner and path, and of a file its blocks and bytes.
function row_words(line,    columns, text) {
  split(line, columns, "\t")
  text = columns[10] " " columns[11] ":" columns[12] " " columns[1]
  if (substr(columns[10], 1, 1) == "-") text = text "  " count(columns[6], "block") ", " count(columns[7], "byte") ", " columns[2] " times"
  return shorten(text "  mtime " columns[3], 150)
}

# The edits of a batch: the first one's kind and path, and how many follow.
function edits_words(bodies,    each, many) {
  many = split(bodies, each, " ")
  return edit_words(each[1]) (many > 1 ? " and " (many - 1) " more" : "")
}

function edit_words(body,    code, at, kind) {
  code = hex_number(substr(body, 1, 2))
  at = code >= 64 ? 43 : 3
  kind = edit_kind(code % 64)
  return kind == "" ? body : kind " " hex_text(substr(body, at + 4, 2 * hex_number(substr(body, at, 4))))
}

function edit_kind(code,    names, codes, k) {
  split("0 1 2 3 4 7 8 9 13 14 15 16", codes, " ")
  split("add mv delete mkdir setrep chmod setowner close times quota rename concat", names, " ")
  for (k = 1; k in codes; k++) if (codes[k] == code) return names[k]
  return ""
}

function hex_number(digits,    k, value) {
  for (k = 1; k <= length(digits); k++) value = value * 16 + index("0123456789abcdef", substr(digits, k, 1)) - 1
  return value + 0
}

function hex_text(digits,    k, text) {
  for (k = 1; k < length(digits); k += 2) text = text sprintf("%c", hex_number(substr(digits, k, 2)))
  return text
}
