# The picture's words.

function escape(text) {
  gsub(/&/, "\\&amp;", text)
  gsub(/</, "\\&lt;", text)
  gsub(/>/, "\\&gt;", text)
  return text
}

# Lengths and cuts count each mark as one character, whatever the awk takes for one.
function encode(text) {
  gsub(/✓/, "\001", text)
  gsub(/✕/, "\002", text)
  gsub(/–/, "\003", text)
  gsub(/★/, "\004", text)
  gsub(/…/, "\005", text)
  gsub(/≠/, "\006", text)
  gsub(/→/, "\016", text)
  return text
}

function decode(text) {
  gsub(/\001/, "✓", text)
  gsub(/\002/, "✕", text)
  gsub(/\003/, "–", text)
  gsub(/\004/, "★", text)
  gsub(/\005/, "…", text)
  gsub(/\006/, "≠", text)
  gsub(/\016/, "→", text)
  return text
}

function width(text) { return length(encode(text)) }

function shorten(text, most) {
  text = encode(text)
  return decode(length(text) <= most ? text : substr(text, 1, most - 1) "\005")
}

function count(number, noun, nouns) { return (number + 0) " " (number == 1 ? noun : nouns == "" ? noun "s" : nouns) }

# How many bodies a request has; -1 where it was shortened.
function count_bodies(request,    words) {
  if (request ~ / characters\] /) return -1
  return split(request, words, " ") - (request ~ /^journal/ ? 6 : 5)
}

# A request in words.
function request_words(request,    words, bodies, what) {
  split(request, words, " ")
  what = words[1]
  if (what == "state") return "state"
  if (what == "new") return "new epoch " words[2]
  if (what == "read") return "read from txid " words[2]
  if (what == "prepare") return "prepare segment " words[5]
  if (what == "fetch") return "fetch edits from " words[6]
  if (what == "start") return "start segment " words[5]
  if (what == "purge") return "purge below " words[5]
  if (what == "finalize") return "finalize " range(words[5], words[6])
  if (what == "accept") {
    bodies = count_bodies(request)
    return "accept " (bodies > 0 ? range(words[5], plus(words[5], bodies - 1)) : "segment " words[5])
  }
  if (what == "journal") {
    bodies = count_bodies(request)
    return bodies == 1 ? "journal edit " words[6] : bodies < 0 ? "journal from " words[6] : "journal edits " range(words[6], plus(words[6], bodies - 1))
  }
  return request
}

# What it is for.
function request_hint(request,    words, many, what) {
  many = split(request, words, " ")
  what = words[1]
  if (what == "state") return "which epoch did you promise?"
  if (what == "new") return "promise it, refuse lower ones"
  if (what == "read") return "the first that has edits gives them"
  if (what == "prepare") return "how much of it do you hold?"
  if (what == "fetch") return "from the best answer (★)"
  if (what == "accept") return "everybody take this as segment " words[5]
  if (what == "finalize") return "it ends here, for good"
  if (what == "start") return "from here on epoch " words[2] " writes"
  if (what == "purge") return "remove old segments"
  if (what == "journal" && words[7] == "18" && many == 7) return "the mark that begins a segment"
  if (what == "journal" && words[7] == "17" && many == 7) return "the mark that ends a segment"
  return ""
}

function request_epoch(request,    words) {
  split(request, words, " ")
  return words[1] == "state" || words[1] == "manifest" || words[1] == "read" ? "" : words[2]
}

# The operator's lines of a row.
function operator_words(r,    i, words, text, last) {
  text = "operator"
  last = ""
  for (i = 1; i <= nodes; i++) {
    if ((r, i) in cell_event) {
      split(event_request[row_actor[r], cell_event[r, i]], words, " ")
      text = text (last == "" ? "" : ",")
      if (words[1] != last) text = text " " (words[1] == "stop" || words[1] == "cut" ? "sets a " words[1] " in" : words[1] "s") (last == "" ? " node" : "")
      text = text " " i
      last = words[1]
    }
  }
  return text
}

# What a group of rows is called, by its first request and its result.
function heading(a, request, result) {
  if (result ~ /^takeover/ || (result == "" && request == "state")) return actor_name[a] " takes over"
  if (result ~ /^roll/) return actor_name[a] " rolls: ends its segment, begins the next"
  if (result ~ /^close/) return actor_name[a] " closes its segment"
  if (result ~ /^tail/ || request ~ /^read/) return actor_name[a] " tails the log"
  if (result ~ /^trim/) return actor_name[a] " lets old segments go"
  return actor_name[a]
}

function group_name(r,    group, result, other) {
  group = row_group[r]
  result = ""
  for (other = r; other <= row_count && row_group[other] == group; other++) {
    if (row_first[other]) {
      result = event_request[row_actor[other], row_first[other]]
      break
    }
  }
  return heading(row_actor[r], row_request[r], result) (is_continued[group] ? " (continued)" : "")
}
