# The results of a row as pieces of text: piece_text[1 ..], each with its class.

# Makes the pieces of the results from..to of actor a, equal ones in a row as one. Answers how many there are.
function pieces(a, from, to,    e, last, words) {
  piece_count = 0
  for (e = from; e <= to; e = last + 1) {
    split(event_request[a, e], words, " ")
    last = words[1] == "acked" ? last_acked(a, e, to) : last_equal(a, e, to)
    if (words[1] == "acked") piece("ra", "✓ acked " range(words[2], words_after(event_request[a, last], 1)))
    else if (words[1] == "aborted" || words[2] == "aborted") aborted_pieces(a, e, last - e + 1)
    else if (words[1] ~ /^(inactive|toolong|late)$/) piece("ri", repeated(words[1], words[2], last - e + 1))
    else if (words[2] == "behind") behind_pieces(a, words)
    else {
      last = e
      other_piece(a, words, event_request[a, e])
    }
  }
  return piece_count
}

function piece(class, text) {
  piece_class[++piece_count] = class
  piece_text[piece_count] = text
}

# The last of the acknowledged edits that go on from event e.
function last_acked(a, e, to) {
  while (e < to && event_request[a, e + 1] == "acked " plus(words_after(event_request[a, e], 1), 1)) e++
  return e
}

function last_equal(a, e, to) {
  while (e < to && event_request[a, e + 1] == event_request[a, e]) e++
  return e
}

function repeated(word, number, times,    edits) {
  edits = times > 1 ? times " edits " : "an edit "
  if (word == "inactive") return (piece_count ? "then " : "") edits "inactive: no open segment"
  if (word == "toolong") return edits "too long: " number
  return "late copy: no such call" (times > 1 ? ", " times " times" : "")
}

# An aborted round with its causes, each with its nodes.
function aborted_pieces(a, e, times,    words, first, text) {
  split(event_request[a, e], words, " ")
  first = words[1] == "aborted" ? 2 : 3
  text = "✕ " (first == 2 ? "aborted" : words[1] " aborted") (times > 1 ? ", " times " edits:" : ":")
  cause_pieces(text, words_after(event_request[a, e], first - 1))
  if (event_request[a, e] ~ /EpochRefused/) piece("rb", "   " actor_name[a] " is fenced: a higher epoch was promised")
}

# A tail that didn't get there, with its causes.
function behind_pieces(a, words) {
  cause_pieces("✕ " (words[1] == "takeover" ? "takeover: " : "") "behind, at txid " words[3] ":", words_after(joined(words), 3))
}

function joined(words,    k, text) {
  text = words[1]
  for (k = 2; k in words; k++) text = text " " words[k]
  return text
}

# The causes of all nodes behind a text, each with its nodes.
function cause_pieces(text, told,    words, word_count, k, cause, causes, at_nodes) {
  word_count = split(told, words, " ")
  for (k = 1; k <= word_count; k++) {
    if (!(words[k] in at_nodes)) cause[++causes] = words[k]
    at_nodes[words[k]] = at_nodes[words[k]] " " k
  }
  for (k = 1; k <= causes; k++) {
    if (width(text) > 52) {
      piece("rb", text)
      text = "   "
    }
    text = text " " cause[k] " at" at_nodes[cause[k]] (k < causes ? ";" : "")
  }
  piece("rb", text)
}

function other_piece(a, words, result) {
  if (words[1] == "takeover" && words[2] == "limit") piece("rb", "✕ takeover: a node promised the limit, " words[3])
  else if (words[2] == "purged") piece("rb", "✕ " (words[1] == "takeover" ? "takeover: " : "") "purged: the kept log begins at txid " words[3])
  else if (words[1] == "active") piece("ri", actor_name[a] " is active: only a standby does this")
  else if (words[1] == "refused") piece("rb", "✕ edit refused: " words[2] " " words[3])
  else if (words[1] == "repeated") piece("ri", "a call again: it is logged at txid " words[2])
  else if (words[1] == "tail") piece("rt", "✓ caught up: the log is replayed to txid " words[2])
  else if (words[1] == "checkpoint") piece("rt", "✓ image saved at txid " words[2])
  else if (words[1] == "reload") piece("rt", (words[2] == "0" ? "✓ begins empty, at 0" : "✓ begins with its newest image, at txid " words[2]))
  else if (words[2] == "noimage") piece("ri", "trim: there is no image")
  else if (words[1] == "takeover") piece("rt", "✓ " actor_name[a] " is the writer: epoch " words[2] ", from txid " words[3])
  else if (words[2] == "inactive") piece("ri", words[1] " inactive: no open segment")
  else if (words[1] == "trim") piece("rt", "✓ segments below txid " words[2] " may go")
  else if (words[1] == "roll") piece("rt", "✓ new segment from " words[2])
  else if (words[1] == "close") piece("rt", "✓ closed, last txid " words[2])
  else piece("rt", "✓ " result)
}

# The one piece of a run of alike rounds.
function run_piece(first, last, rounds) {
  piece_count = 0
  piece("ra", "✓ acked " range(words_after(first, 1), words_after(last, 1)) ": " rounds " rounds")
}

# At most eight pieces are drawn.
function cut_pieces() {
  if (piece_count <= 8) return
  piece_class[8] = "ri"
  piece_text[8] = "… and " (piece_count - 7) " more"
  piece_count = 8
}
