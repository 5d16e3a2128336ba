# What is wrong with a line of a script or with a request line, and in which column: one cause, in words. `line` is its number,
# `rule` the rule that the program told, `kind` the command (`node`: a request line), `lacks_end` is set where the file's last
# byte is no line feed. Nothing is written where the cause isn't seen here.

# The lines before it: what a script begins with, and the actors that it declares.
NR < line && kind != "node" && $0 != "" && $0 !~ /^#/ {
  if (!nodes) { has_names = $1 == "names"; nodes = $2 }
  else if ($1 == "writer" || $1 == "name") actors = actors " " $2
  next
}

NR == line { text = $0; is_there = 1 }

END {
  if (!is_there) exit
  tell_bytes(NR == line && lacks_end)
  if (kind == "node") learn_requests()
  else learn_lines()
  count = split(text, word, " ")
  if (rule == 2) tell_first_word()
  else if (rule == 3) tell_words()
  else if (rule == 10 && length(text) > 16384) print "column 16385: the line has " length(text) " bytes, and 16,384 are the most"
  else if (rule == 1) tell_beginning()
  else if (rule ~ /^(4|5|6|11)$/) tell_name()
  else if (rule == 7) tell_number()
  else if (rule == 8) tell_body()
  else if (rule == 9) tell_edit()
}

# ## Bytes that no line may have

function tell_bytes(is_cut,    at) {
  if (at = index(text, "\r"))
    end(at, at == length(text) ? "the line ends in CR LF; a line ends in LF alone" : "a carriage return")
  if (at = index(text, "\t")) end(at, "a tab; words stand one space apart")
  if (match(text, /[\200-\377]/)) end(RSTART, "a letter past ASCII (the byte " hex(substr(text, RSTART, 1)) ")")
  if (match(text, /[\001-\037\177]/)) end(RSTART, "a control character (the byte " hex(substr(text, RSTART, 1)) ")")
  if (is_cut && rule == 10) end(length(text) + 1, "the last line has no line feed at its end")
}

function hex(c,    k) {
  for (k = 1; k < 256; k++) if (sprintf("%c", k) == c) return sprintf("%02x", k)
  return "??"
}

function end(column, words) {
  print "column " column ": " words
  exit
}

# ## The words of a line

# What a line of each first word looks like.
function learn_requests() {
  learn("state;new E;start E S C M;journal E S C M F BODY ..;finalize E S C M END;prepare E S C M;fetch E S C M FROM;" \
    "accept E S C M BODY ..;purge E S C MIN;read FROM;manifest")
}

function learn_lines(    shared) {
  shared = ";takeover A;roll A;close A;drop A I K;mute A I K;late A I K;kill I;restart I;stop I J K;cut I J D CHOICE"
  learn((has_names ? "name NAME;log A EDIT ..;tail A;trim A EXTRA;checkpoint A;reload A" : "writer NAME;log A BODY ..;purge A MIN") shared)
}

function learn(forms,    each, many, k, words) {
  many = split(forms, each, ";")
  for (k = 1; k <= many; k++) {
    split(each[k], words, " ")
    form[words[1]] = each[k]
    first_words = first_words " " words[1]
  }
}

# A word in a sentence, a long one by its beginning.
function quoted(text) { return "`" (length(text) > 40 ? substr(text, 1, 40) ".." : text) "`" }

# Where a word begins.
function column_of(place,    k, at) {
  at = 1
  for (k = 1; k < place; k++) at += length(word[k]) + 1
  return at
}

function tell_first_word() {
  if (text == "") end(1, "the line is empty, and a request has at least one word")
  if (count == 0) end(1, "the line has spaces alone")
  end(index(text, word[1]), quoted(word[1]) " begins no line here; these do:" first_words)
}

# A first line whose words are right has a space too many; else the words are told.
function tell_beginning() {
  if (count == 2 && word[1] ~ /^(raw|names)$/ && word[2] ~ /^([1-9]|1[0-5])$/) tell_spaces()
  end(1, "a script begins with `raw N` or `names N`, N from 1 to 15")
}

function tell_spaces(    at) {
  if (text ~ /^ /) end(1, "a space before the first word")
  if (at = index(text, "  ")) end(at + 1, "a second space; words stand one space apart")
  if (text ~ / $/) end(length(text), "a space behind the last word")
}

function tell_words(    wanted) {
  tell_spaces()
  if (!(word[1] in form)) return
  wanted = split(form[word[1]], asked, " ")
  end(column_of(count < wanted ? count + 1 : wanted + 1), "the line has " count " word" (count == 1 ? "" : "s") ", and it has to be `" form[word[1]] "`")
}

function tell_name() {
  if (rule == 4) end(column_of(2), quoted(word[2]) " is no name: a letter a to z, then up to 15 of a to z and 0 to 9, and not `ops`")
  if (rule == 5) end(column_of(2), "no line before declares the actor " quoted(word[2]) "; declared are:" (actors == "" ? " none" : actors))
  if (rule == 6) end(column_of(2), "the actor `" word[2] "` was declared before")
  end(column_of(2), "`" word[2] "` would be the ninth actor, and eight are the most")
}

# ## Numbers

# The first word that isn't in the range of its place.
function tell_number(    many, k, asked, why) {
  if (!(word[1] in form)) return
  many = split(form[word[1]], asked, " ")
  for (k = 2; k <= many; k++) {
    why = asked[k] ~ /^(BODY|EDIT|\.\.|A|NAME)$/ ? "" : fault_of(word[k], asked[k])
    if (why != "") end(column_of(k), quoted(word[k]) " is no " asked[k] " of `" form[word[1]] "`: " why)
  }
}

function fault_of(text, what,    least, most) {
  if (what == "CHOICE") return text ~ /^(old|new|a5)$/ ? "" : "it is old, new or a5"
  if (text !~ /^[0-9]+$/) return "it is no decimal number"
  if (text ~ /^0./) return "it has a leading zero"
  most = kind == "node" ? "18446744073709551615" : what == "I" ? nodes : "4611686018427387904"
  if (is_above(text, most)) return what == "I" ? "the nodes are 1 to " nodes : "it is above " most
  least = what ~ /^(E|S|M|F|FROM|I|J|K)$/ && !(word[1] == "new") && !(word[1] == "stop" && what == "K")
  return text == "0" && least ? "it is at least 1" : ""
}

function is_above(a, b) { return length(a) != length(b) ? length(a) > length(b) : (a "") > (b "") }

# ## Bodies and edits

function tell_body(    k, why) {
  for (k = word[1] == "log" ? 3 : word[1] == "journal" ? 7 : 6; k <= count; k++) {
    why = body_fault(word[k])
    if (why != "") end(column_of(k), "a body " why)
  }
}

function body_fault(text) {
  if (text ~ /[A-F]/) return "has capital letters; its digits are 0 to 9 and a to f"
  if (match(text, /[^0-9a-f]/)) return "has `" substr(text, RSTART, 1) "`; its digits are 0 to 9 and a to f"
  if (length(text) % 2) return "has an odd number of digits, " length(text) "; a byte has two"
  return length(text) > 8192 ? "has " length(text) / 2 " bytes, and 4,096 are the most" : ""
}

# The first edit of a log whose kind isn't one, or that has too few or too many words.
function tell_edit(    many, k, edits, at, words, first) {
  split("add 9 mv 4 delete 3 mkdir 6 setrep 3 chmod 3 setowner 4 times 4 quota 4 rename 5", words, " ")
  for (k = 1; k in words; k += 2) wanted_words[words[k]] = words[k + 1]
  many = split(substr(text, column_of(3)), edits, / ; /)
  at = column_of(3)
  for (k = 1; k <= many; k++) {
    tell_kind(edits[k], at, "edit " k)
    at += length(edits[k]) + 3
  }
}

function tell_kind(edit, at, which,    words, have, first) {
  if (edit ~ /^;/) end(at, "no edit stands before this `;`")
  if (edit ~ / ;$/) end(at + length(edit) - 1, "no edit stands behind this `;`")
  have = split(edit, words, " ")
  first = words[1] == "call" ? 4 : 1
  if (words[first] ~ /^(close|concat)$/) return
  if (!(words[first] in wanted_words))
    end(at, which ": " quoted(words[first]) " is no edit; these are: add mv delete mkdir setrep chmod setowner close times quota rename concat")
  if (have - first + 1 != wanted_words[words[first]])
    end(at, which ": a `" words[first] "` has " wanted_words[words[first]] " words, and here are " (have - first + 1))
}
