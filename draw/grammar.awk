# Which texts are requests, replies, operations and results of a report.

# What stands after n words.
function words_after(text, many,    at) {
  while (many-- > 0) {
    at = index(text, " ")
    if (!at) return ""
    text = substr(text, at + 1)
  }
  return text
}

function are_bodies(text) { return text != "" && text !~ /[^0-9a-f ]/ && text !~ /  / && text !~ / $/ && text !~ /^ / }

function is_operation(text) {
  return text == "kill" || text == "restart" || text ~ /^stop [0-9]+ [0-9]+$/ || text ~ /^cut [0-9]+ [0-9]+ (old|new|a5)$/
}

function is_request(text) {
  if (text == "state" || text == "manifest") return 1
  if (text ~ /^(new|read) [0-9]+$/) return 1
  if (text ~ /^(start|prepare|purge) [0-9]+ [0-9]+ [0-9]+ [0-9]+$/) return 1
  if (text ~ /^(fetch|finalize) [0-9]+ [0-9]+ [0-9]+ [0-9]+ [0-9]+$/) return 1
  if (text ~ /^journal [0-9]+ [0-9]+ [0-9]+ [0-9]+ [0-9]+ /) return are_bodies(words_after(text, 6))
  if (text ~ /^accept [0-9]+ [0-9]+ [0-9]+ [0-9]+ /) return are_bodies(words_after(text, 5))
  return 0
}

function is_reply(text,    words) {
  if (text == "ok" || text == "new none" || text == "segments" || text == "not opened") return 1
  if (text ~ /^(state|new|stopped) [0-9]+$/) return 1
  if (text ~ /^refused [0-9]+ [A-Za-z]+( [0-9]+)?$/) {
    split(text, words, " ")
    return refusal_name[words[2] + 0] == words[3]
  }
  if (text ~ /^prepared [0-9]+ [0-9]+ (none|[0-9]+ (final|inprogress) [0-9]+ (yes|no) [0-9]+)$/) return 1
  if (text ~ /^edits [0-9]+ /) return are_bodies(words_after(text, 2))
  return text ~ /^segments( [0-9]+ [0-9]+ (final|inprogress) [0-9]+)+$/
}

function is_result(text,    words) {
  if (text ~ /^takeover [0-9]+ [0-9]+$/ || text ~ /^(takeover|tail) purged [0-9]+$/ || text ~ /^takeover limit [0-9]+$/) return 1
  if (text ~ /^(acked|repeated|toolong|roll|close|tail|checkpoint|reload|trim) [0-9]+$/) return 1
  if (text ~ /^(inactive|active|late none|purge ok|trim noimage)$/ || text ~ /^(roll|close|purge|trim) inactive$/) return 1
  if (text ~ /^refused [0-9]+ [A-Za-z]+$/) {
    split(text, words, " ")
    return admission_name[words[2] + 0] == words[3]
  }
  if (text ~ /^aborted /) return are_causes(words_after(text, 1))
  if (text ~ /^(takeover|roll|close|purge|trim) aborted /) return are_causes(words_after(text, 2))
  return text ~ /^(takeover|tail) behind [0-9]+ / && are_causes(words_after(text, 3))
}

# One cause for each node.
function are_causes(text,    words, many, k) {
  many = split(text, words, " ")
  for (k = 1; k <= many; k++) if (words[k] !~ /^[A-Za-z]+(:[0-9]+)?$/) return 0
  return many == nodes
}

# A row of a namespace: a path from `/` on, and eleven columns behind it.
function is_row(text,    columns) {
  return substr(text, 1, 3) == ". /" && split(text, columns, "\t") == 12 && columns[10] ~ /^[d-][r-][w-][x-][r-][w-][x-][r-][w-][xtT-]$/
}
