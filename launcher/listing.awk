# What is wrong with a listing that becomes no segment, in one sentence, and behind it, on a line of its own, the member that is
# bad. The input is the listing, and `cause` what the program told: Json, or Entry with the `place` of the member, from 0, and the
# `txid` that it has to have. The sentence is empty where the cause isn't seen here. launcher/edits.awk has the kinds of edits.

# A record ends at a quote, so records are by turns what stands outside of texts and what stands in them.
BEGIN {
  RS = "\""
  line = column = 1
  wanted = "a value"
}

!is_inside {
  take_plain($0)
  is_inside = 1
  text = ""
  next
}

{
  text = text $0
  # (behind an odd number of backslashes the quote is the text's own)
  match(text, /\\*$/)
  if (RLENGTH % 2) {
    text = text "\""
    next
  }
  take("text", text)
  go_past(text "\"\"")
  is_inside = 0
}

END {
  if (is_told) exit
  if (cause == "Json" && wanted != "nothing more") tell("the text ends where " wanted " has to stand")
  tell("")
}

# Writes the sentence and the member, and ends.
function tell(sentence) {
  if (is_told) return
  is_told = 1
  print sentence
  gsub(/[^ -~]/, "?", member)
  if (length(member) > 120) member = substr(member, 1, 120) " .."
  if (cause == "Entry") print member
  exit
}

# Goes past bytes, so that the next one's line and column are known.
function go_past(bytes,    lines, count) {
  count = split(bytes, lines, "\n")
  if (count > 1) {
    line += count - 1
    column = 1
  }
  column += length(lines[count])
}

# ## Tokens

# Takes what stands outside of texts: brackets, commas, colons and words, and space between them.
function take_plain(bytes,    word, c) {
  while (bytes != "") {
    if (match(bytes, /^[ \t\r\n]+/)) word = substr(bytes, 1, RLENGTH)
    else if (match(bytes, /^[^][{},: \t\r\n]+/)) {
      word = substr(bytes, 1, RLENGTH)
      take("word", word)
    } else {
      word = substr(bytes, 1, 1)
      take(word, word)
    }
    go_past(word)
    bytes = substr(bytes, length(word) + 1)
  }
}

# Takes a token: what it is, a bracket, a comma, a colon, `text` or `word`, and what it says.
function take(what, says) {
  if (cause == "Json") judge_token(what, says)
  else if (depth == 1 && (what == "," || what == "]")) {
    if (members++ == place) tell(fault_of_member())
  } else if (depth > 0 && members == place) keep(what, says)
  if (what == "[" || what == "{") bracket[++depth] = what
  else if (what == "]" || what == "}") depth--
  want_next(what)
}

# ## The grammar of JSON

function judge_token(what, says,    here) {
  here = "line " line ", column " column ": "
  if (depth == 0 && wanted == "a value" && what != "[") tell(here "a listing is an array, which begins with `[`")
  if (!fits(what)) tell(here (wanted == "nothing more" ? "something stands behind the end of the array" : wanted " has to stand here"))
  if (what == "word" && says !~ /^(true|false|null|-?(0|[1-9][0-9]*)([.][0-9]+)?([eE][-+]?[0-9]+)?)$/)
    tell(here "`" substr(says, 1, 40) "` is no value of JSON")
  if (what != "text") return
  gsub(/\\["\\\/bfnrt]|\\u[0-9a-fA-F][0-9a-fA-F][0-9a-fA-F][0-9a-fA-F]/, "", says)
  if (says ~ /\\/) tell(here "the text that begins here has a backslash that begins no escape")
  if (says ~ /[\001-\037]/) tell(here "the text that begins here has a control character, or its end is missing")
}

# Whether a token may stand where the wanted one has to.
function fits(what) {
  if (what == "text") return wanted ~ /^a (value|key)/
  if (what == "word" || what == "[" || what == "{") return wanted ~ /^a value/
  if (what == ":") return wanted == "a colon"
  if (what == ",") return wanted ~ /^a comma/
  return substr(wanted, length(wanted)) == what
}

# What has to stand behind a token that fitted.
function want_next(what) {
  if (what == "[") wanted = "a value or ]"
  else if (what == "{") wanted = "a key in quotes or }"
  else if (what == ",") wanted = bracket[depth] == "[" ? "a value" : "a key in quotes"
  else if (what == ":") wanted = "a value"
  else if (what == "text" && wanted ~ /^a key/) wanted = "a colon"
  else if (depth == 0) wanted = "nothing more"
  else wanted = "a comma or " (bracket[depth] == "[" ? "]" : "}")
}

# ## The member

# Keeps a token of the member.
function keep(what, says) {
  kind[++kept] = what
  said[kept] = says
  if (length(member) <= 120) member = member (what == "text" ? "\"" says "\"" : says)
}

# What is wrong with the member, as far as it is seen: a key with an escape isn't judged.
function fault_of_member(    op, name, why) {
  if (kind[1] != "{") return "it is no object, in { and }"
  if (!read_keys()) return ""
  if (!("op" in value)) return "it has no `op`"
  op = value["op"]
  name = substr(said[op], 4)
  if (kind[op] != "text" || said[op] !~ /^OP_/ || !(name in kind_fields)) return "its `op` is that of no kind of edit"
  why = fault_of_keys(name)
  if (why == "") why = fault_of_txid(value["txid"])
  return why == "" ? fault_of_fields(name) : why
}

# Finds at which token the value of each key begins; of equal keys the last counts.
function read_keys(    i, level, key) {
  for (i = 2; i < kept; i++) {
    if (kind[i] == "[" || kind[i] == "{") level++
    else if (kind[i] == "]" || kind[i] == "}") level--
    else if (level == 0 && kind[i] == "text" && kind[i + 1] == ":") {
      key = said[i]
      if (key ~ /\\/) return 0
      value[key] = (i += 2)
      i--
    }
  }
  return 1
}

function fault_of_keys(name,    keys, key, pairs, many, k, pair) {
  keys["op"] = keys["txid"] = 1
  if (("callid" in value) || ("clientid" in value)) {
    if (name ~ /_LOG_SEGMENT$/) return "it has a call, which no " name " has"
    keys["callid"] = keys["clientid"] = 1
  }
  many = split(kind_fields[name], pairs, " ")
  for (k = 1; k <= many; k++) {
    split(pairs[k], pair, ":")
    keys[pair[1]] = 1
  }
  for (key in keys) if (!(key in value)) return "it has no `" key "`"
  for (key in value) if (!(key in keys)) return "it has the key `" key "`, which no " name " has"
  return ""
}

function fault_of_txid(i) {
  if (kind[i] != "word" || said[i] !~ /^[0-9]+$/) return "its `txid` has to be the number " txid
  return (said[i] "" == txid "") ? "" : "its `txid` is " said[i] ", and here " txid " is next"
}

function fault_of_fields(name,    pairs, many, k, pair, why) {
  many = split(kind_fields[name], pairs, " ")
  for (k = 1; k <= many; k++) {
    split(pairs[k], pair, ":")
    why = fault_of_value(value[pair[1]], pair[2])
    if (why != "") return "its `" pair[1] "` " why
  }
  if (!("callid" in value)) return ""
  why = number_fault(value["callid"], "4294967295", "2^32 - 1")
  if (why != "") return "its `callid` " why
  return is_client(value["clientid"]) ? "" : "its `clientid` has to be a text of 32 digits, 0 to 9 and a to f"
}

# What is wrong with the value of a field of this kind that begins at a token.
function fault_of_value(i, what,    why) {
  if (what == "path") return text_fault(i, 1000)
  if (what == "name") return text_fault(i, 32)
  if (what == "8") return number_fault(i, "4611686018427387904", "2^62")
  if (what == "2") return number_fault(i, "65535", "65,535")
  if (what == "flag") return kind[i] == "word" && said[i] ~ /^(true|false)$/ ? "" : "has to be true or false"
  if (kind[i] != "[") return "has to be an array"
  while (kind[++i] != "]") {
    if (kind[i] == ",") continue
    why = fault_of_value(i, what == "paths" ? "path" : "8")
    if (why != "") return "has a bad item: it " why
  }
  return ""
}

function number_fault(i, most, name) {
  if (kind[i] != "word" || said[i] !~ /^(0|[1-9][0-9]*)$/) return "has to be a number, of digits alone"
  if (length(said[i]) > length(most) || (length(said[i]) == length(most) && said[i] "" > most "")) return "is above " name
  return ""
}

function text_fault(i, most,    bytes) {
  if (kind[i] != "text") return "has to be a text, in quotes"
  bytes = said[i]
  gsub(/\\["\\\/]/, "x", bytes)
  if (bytes ~ /\\/) return ""
  if (length(bytes) > most) return "has " length(bytes) " bytes, and " most " are the most"
  return bytes ~ /[^!-~]/ ? "has a space, or another character that no text of an edit has" : ""
}

function is_client(i,    digits) {
  digits = said[i]
  return kind[i] == "text" && length(digits) == 32 && digits !~ /[^0-9a-f]/
}
