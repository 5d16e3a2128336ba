# Reading a report: its lines become lists, and what isn't a report is refused with its line.
#
# Line k of node i's history: line_caller[i, k] (with ` late` for a late copy), line_request, line_reply, line_view (what the picture
# says of it), line_number. Event e of actor a's record: event_kind[a, e] (c a call, l a late copy, o the operator's, r a result),
# event_node, event_request (or the result's words), event_heard, event_number. Of an actor with a namespace position_of[a], and
# space_row[a, 1 ..], its rows; space_rows[a] is how many.

BEGIN {
  if (maxlines == "") maxlines = 150000
  if (maxrows == "") maxrows = 3000
  if (collapse == "") collapse = 4
  if (foldrows == "") foldrows = 100
  part = "begin"
  split("Down Limit EpochRefused OldSerial NotWriter NoOpenSegment WrongSegment WrongTxid SegmentFinal SegmentHasEdits NoSegment " \
    "OtherEpoch LengthDiffers Purged NotHere DiskFault OutOfMemory BadFile", refusal_name, " ")
  split("NoParent Exists Missing NotDirectory NotFile NotEmpty UnderConstruction Root IntoItself BadName BadNumber", admission_name, " ")
}

{
  lines = NR
  if (part == "done") fail("a line after `end`")
  if (!is_big && NR > maxlines) sum_only()
  if (part == "begin") read_first()
  else if (part == "nodes") read_node_line()
  else read_actor_line()
}

function read_first() {
  if ($0 !~ /^nodes ([1-9]|1[0-5])$/) fail("a report begins with `nodes N`, N from 1 to 15")
  nodes = substr($0, 7) + 0
  node = 0
  part = "nodes"
}

function read_node_line() {
  if ($0 == "node " (node + 1) && node < nodes) fresh_node(++node)
  else if (node == 0) fail("`node 1` is wanted")
  else if (node == nodes && ($0 == "end" || $0 ~ /^actor /)) {
    part = "actors"
    read_actor_line()
  } else read_history()
}

function read_actor_line() {
  if ($0 == "end") part = "done"
  else if ($0 ~ /^actor [a-z][a-z0-9]*$/) begin_actor(substr($0, 7))
  else if (actor_count == 0) fail("`actor NAME` or `end` is wanted")
  else if ($0 ~ /^position [0-9]+$/) begin_space(actor_count, substr($0, 10))
  else if (actor_count in position_of) read_row(actor_count)
  else if (substr($0, 1, 2) == "= ") read_result(actor_count, substr($0, 3))
  else read_event(actor_count)
}

function begin_actor(name) {
  if (name in actor_number) fail("an actor twice")
  if (actor_count && actor_name[actor_count] == "ops") fail("an actor after the operator")
  actor_name[++actor_count] = name
  actor_number[name] = actor_count
  event_count[actor_count] = 0
  if (name != "ops" && ++writer_count > 8) fail("a ninth actor")
}

# The end of an actor with names: how far it has replayed the log, and the rows of its namespace.
function begin_space(a, position) {
  if (a in position_of) fail("a position twice")
  if (actor_name[a] == "ops") fail("a position of the operator")
  position_of[a] = position
  space_rows[a] = 0
  has_names = 1
}

function read_row(a) {
  if (!is_row($0)) fail("not a row of a namespace")
  space_rows[a]++
  if (!is_big) space_row[a, space_rows[a]] = substr($0, 3)
}

function fail(text) {
  printf "qjm: draw: line %d: %s\n", (NR ? NR : 1), text | "cat 1>&2"
  close("cat 1>&2")
  is_refused = 1
  exit 1
}

# From here on the lines are only counted.
function sum_only() {
  is_big = 1
  split("", line_caller); split("", line_request); split("", line_reply); split("", line_view); split("", line_number)
  split("", space_row)
  split("", event_kind); split("", event_node); split("", event_request); split("", event_heard); split("", event_number)
}

# A long text is kept by its ends.
function ends_of(s) {
  if (length(s) <= 700) return s
  return substr(s, 1, 560) " [" (length(s) - 600) " characters] " substr(s, length(s) - 39)
}

# Splits the line at its arrow and after its first word: first_word, asked_words, answer_words.
function split_line(what, at) {
  at = index($0, " -> ")
  if (!at) fail(what)
  answer_words = substr($0, at + 4)
  asked_words = substr($0, 1, at - 1)
  at = index(asked_words, " ")
  if (!at) fail(what)
  first_word = substr(asked_words, 1, at - 1)
  asked_words = substr(asked_words, at + 1)
}

# Takes `late` off the words that ask; answers whether it stood there.
function take_late() {
  if (substr(asked_words, 1, 5) != "late ") return 0
  asked_words = substr(asked_words, 6)
  return 1
}

function read_history(    is_late, view) {
  split_line("not a line of a node's history")
  if (first_word !~ /^[a-z][a-z0-9]*$/) fail("not a caller's name")
  line_count[node]++
  if (first_word == "ops") {
    expect_operation()
    view = operate(node, asked_words, answer_words)
  } else {
    is_late = take_late()
    if (!is_request(asked_words)) fail("not a request")
    if (!is_reply(answer_words)) fail("not a reply")
    view = step(node, asked_words, answer_words)
  }
  tally(node, asked_words, answer_words)
  if (!is_big) keep_line(node SUBSEP line_count[node], first_word (is_late ? " late" : ""), view)
}

function keep_line(at, caller, view) {
  line_caller[at] = caller
  line_request[at] = ends_of(asked_words)
  line_reply[at] = ends_of(answer_words)
  line_view[at] = view
  line_number[at] = NR
}

function expect_operation() {
  if (!is_operation(asked_words)) fail("not an operator's line")
  if (answer_words !~ /^(done|idle|not opened)$/) fail("not an operator's answer")
}

function read_result(a, result,    words, what) {
  if (!is_result(result)) fail("not a result line")
  if (actor_name[a] == "ops") fail("a result of the operator")
  split(result, words, " ")
  what = words[1] (words[2] ~ /^(aborted|limit|inactive|behind|purged|noimage)$/ ? " " words[2] : "")
  total["= " what]++
  event_count[a]++
  if (!is_big) keep_event(a SUBSEP event_count[a], "r", "", result, "")
}

function read_event(a,    what) {
  split_line("not a line of an actor's record")
  if (first_word !~ /^[1-9][0-9]?$/ || first_word + 0 > nodes) fail("not a node's number")
  what = actor_name[a] == "ops" ? "o" : take_late() ? "l" : "c"
  if (what == "o") count_operation()
  else count_call(what)
  if (asked_words ~ /^new /) epochs[substr(asked_words, 5)] = 1
  event_count[a]++
  if (!is_big) keep_event(a SUBSEP event_count[a], what, first_word + 0, ends_of(asked_words), ends_of(answer_words))
}

function count_operation(    words) {
  expect_operation()
  split(asked_words, words, " ")
  if (answer_words == "done") total["ops " words[1]]++
}

function count_call(what,    heard) {
  heard = answer_words
  if (!is_request(asked_words)) fail("not a request")
  if (what == "l" && heard != "gone") fail("a late copy is heard by nobody")
  if (what == "c" && heard !~ /^(dropped|muted|silent)$/ && !is_reply(heard)) fail("not what an actor hears")
  total[what == "l" ? "late" : "call"]++
  if (heard ~ /^(dropped|muted|silent)$/) total[heard]++
  if (is_end_of_log(asked_words, heard)) total["read at the end"]++
  else if (heard ~ /^refused/) total["refused"]++
}

function keep_event(at, what, at_node, request, heard) {
  event_kind[at] = what
  event_node[at] = at_node
  event_request[at] = request
  event_heard[at] = heard
  event_number[at] = NR
}

# A read that finds nothing later at a node is no refusal to a reader: so each tail ends.
function is_end_of_log(request, answer) { return request ~ /^read / && answer ~ /^refused 15 / }

# How often node i answered what: tally_words[i] has the words in order, tally_count how often.
function tally(i, request, answer,    words, word) {
  if (answer ~ /^(done|idle|not opened)$/) return
  split(answer, words, " ")
  word = is_end_of_log(request, answer) ? "nothing later" : answer ~ /^refused/ ? words[3] : answer ~ /^stopped/ ? "stopped" : "answered"
  if (!((i, word) in tally_count)) tally_words[i] = tally_words[i] (i in tally_words ? "," : "") word
  tally_count[i, word]++
}
