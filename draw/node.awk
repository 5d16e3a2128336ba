# The step of a node without bodies: what each request of a history leaves at its node, and what the picture says of it.
#
# Of node i: up[i], promised[i], writer_epoch[i], committed[i], known_of[i], serial_of[i], open_segment[i]; segment_start[i, 1 ..] has
# the starts of its segments, rising, and by a start segment_epoch, segment_edits (how many), is_final and is_accepted.
# Of the request that is stepped: asked[1 ..] its words, kind, epoch, serial, told (the committed txid), start; refusal, effect[1 ..
# effect_count] and expected, the reply.

function fresh_node(i) {
  up[i] = 1
  promised[i] = writer_epoch[i] = committed[i] = known_of[i] = serial_of[i] = "0"
  open_segment[i] = ""
}

# What the picture says of an operator's line: KIND|EPOCH|TEXT.
function operate(i, line, answer, words) {
  split(line, words, " ")
  if (line == "kill") {
    if (answer == "done") up[i] = 0
    return answer == "done" ? "kill||killed" : "idle||was down already"
  }
  if (line == "restart") return answer == "done" ? restarted(i) : answer == "idle" ? "idle||was up already" : "stop||✕ " answer
  if (answer == "idle") return "idle||is down, no stop set"
  return "arm||" words[1] ": call " words[2] (words[1] == "stop" ? ", keep " words[3] : ", disk " words[3])
}

function restarted(i) {
  up[i] = 1
  known_of[i] = committed[i]
  serial_of[i] = "0"
  open_segment[i] = ""
  return "rise||up again"
}

# What the picture says of a request and its answer at node i, as KIND|EPOCH|TEXT: KIND is ok, bad, down or stop.
function step(i, request, answer, kept) {
  if (!up[i]) {
    if (answer != "refused 1 Down") wonder()
    return answer ~ /^refused/ ? "down||✕ 1 Down" : "down||✕ " answer
  }
  if (answer ~ /^refused (2|16|17|18) / || answer == "not opened") return "bad||✕ " words_after(answer, 1)
  read_request(i, request)
  pass_front(i)
  if (refusal == "") judge(i)
  kept = count_kept(answer)
  removed = 0
  do_effects(i, kept)
  if (answer ~ /^stopped /) {
    up[i] = 0
    return "stop||✕ stop, stored " kept "/" effect_count
  }
  if (passes_front) leave_front(i)
  if (kind == "read" && answer ~ /^refused 15 /) return "idle||" (answer ~ / 0$/ ? "serves nothing yet" : "serves up to " words_after(answer, 3))
  return answer ~ /^refused/ ? "bad||✕ " substr(answer, 9) : picture_of(i, answer)
}

# An answer that the step doesn't give is counted, with its first line.
function wonder() {
  strange_count++
  if (!strange_number) strange_number = NR
}

function read_request(i, request) {
  asked_count = split(request, asked, " ")
  kind = asked[1]
  effect_count = 0
  refusal = ""
  expected = "ok"
  opened = open_segment[i]
  known = known_of[i]
  has_head = kind !~ /^(state|new|read|manifest)$/
  epoch = has_head || kind == "new" ? asked[2] "" : ""
  serial = has_head ? asked[3] "" : ""
  told = has_head ? asked[4] "" : ""
  start = has_head ? asked[5] "" : ""
}

# The front of a request with a head.
function pass_front(i) {
  passes_front = 0
  if (!has_head) return
  if (compare(epoch, promised[i]) < 0) refusal = "3 EpochRefused " promised[i]
  else if (epoch == promised[i] && compare(serial, serial_of[i]) <= 0) refusal = "4 OldSerial " serial_of[i]
  if (refusal != "") return
  passes_front = 1
  if (compare(epoch, promised[i]) > 0) {
    effect[++effect_count] = "promise"
    opened = ""
  }
  if (compare(told, known) > 0) known = told
}

function leave_front(i) {
  open_segment[i] = kind ~ /^(prepare|fetch|accept)$/ ? "" : opened
  known_of[i] = known
  serial_of[i] = serial
  if (refusal == "" && kind == "start") open_segment[i] = start
  if (refusal == "" && kind == "finalize" && opened == start) open_segment[i] = ""
}

# The table behind the front: what is refused, the effects in order, and the reply.
function judge(i) {
  if (kind == "state") expected = "state " promised[i]
  else if (kind == "new") judge_new(i)
  else if (kind == "start") judge_start(i)
  else if (kind == "journal") judge_journal(i)
  else if (kind == "finalize") judge_finalize(i)
  else if (kind == "prepare") expected = "prepared " writer_epoch[i] " " known " " told_segment(i)
  else if (kind == "fetch") judge_fetch(i)
  else if (kind == "accept") judge_accept(i)
  else if (kind == "purge") judge_purge(i)
}

function judge_new(i, newest) {
  newest = newest_start(i)
  if (compare(epoch, promised[i]) <= 0) refusal = "3 EpochRefused " promised[i]
  else effect[++effect_count] = "promise"
  expected = "new " (newest == "" ? "none" : newest)
}

function judge_start(i) {
  if ((i, start) in segment_epoch && is_final[i, start]) refusal = "9 SegmentFinal " segment_end(i, start)
  else if (has_edit(i)) refusal = "10 SegmentHasEdits " segment_end(i, start)
  if (refusal != "") return
  if (writer_epoch[i] != epoch) effect[++effect_count] = "writer"
  effect[++effect_count] = "begin"
}

function judge_journal(i, next_txid) {
  next_txid = plus(start, segment_edits[i, start])
  if (epoch != writer_epoch[i]) refusal = "5 NotWriter " writer_epoch[i]
  else if (opened == "") refusal = "6 NoOpenSegment"
  else if (opened != start) refusal = "7 WrongSegment " opened
  else if (asked[6] != next_txid) refusal = "8 WrongTxid " next_txid
  else effect[++effect_count] = "append"
  batch_size = asked_count - 6
}

function judge_finalize(i) {
  if (!has_edit(i)) refusal = "11 NoSegment"
  else if (!is_final[i, start] && segment_epoch[i, start] != epoch) refusal = "12 OtherEpoch " segment_epoch[i, start]
  else if (segment_end(i, start) != asked[6]) refusal = "13 LengthDiffers " segment_end(i, start)
  if (refusal != "") return
  if (!is_final[i, start]) effect[++effect_count] = "final"
  if (compare(known, committed[i]) > 0) effect[++effect_count] = "committed"
}

function judge_fetch(i) {
  if (!has_edit(i)) refusal = "11 NoSegment"
  else if (compare(asked[6], start) < 0 || compare(asked[6], segment_end(i, start)) > 0)
    refusal = "15 NotHere " segment_end(i, start)
  expected = "edits"
}

function judge_accept(i) {
  batch_size = asked_count - 5
  if (!((i, start) in segment_epoch && is_final[i, start])) effect[++effect_count] = "accept"
  else if (segment_edits[i, start] != batch_size) refusal = "13 LengthDiffers " segment_end(i, start)
}

# Each segment goes that isn't open, isn't the newest with an edit, and ends below the minimum and within the told committed txid.
function judge_purge(i, k, other, last, newest) {
  newest = newest_start(i)
  for (k = 1; k <= segment_count[i]; k++) {
    other = segment_start[i, k]
    last = segment_edits[i, other] > 0 ? segment_end(i, other) : other
    if (compare(last, start) < 0 && compare(last, told) <= 0 && other != opened && other != newest)
      effect[++effect_count] = "drop " other
  }
}

function has_edit(i) { return (i, start) in segment_epoch && segment_edits[i, start] > 0 }

# What a prepare answer tells of the segment.
function told_segment(i) {
  if (!has_edit(i)) return "none"
  return start " " (is_final[i, start] ? "final" : "inprogress") " " segment_epoch[i, start] " " \
    (is_accepted[i, start] ? "yes" : "no") " " segment_end(i, start)
}

# How many effects stood, by the answer. An answer that isn't the expected one is wondered at.
function count_kept(answer, kept) {
  if (refusal != "") expected = "refused " refusal
  if (answer ~ /^stopped /) {
    kept = substr(answer, 9) + 0
    if (kept <= effect_count) return kept
    wonder()
  } else if (kind != "read" && kind != "manifest" && answer != expected && !gives_edits(answer)) wonder()
  return effect_count
}

function gives_edits(answer) { return expected == "edits" && answer ~ ("^edits " asked[6] " ") }

function do_effects(i, kept, k) {
  for (k = 1; k <= kept; k++) do_effect(i, effect[k])
}

function do_effect(i, what) {
  if (what == "promise") promise(i)
  else if (what == "writer") writer_epoch[i] = epoch
  else if (what == "begin") put_segment(i, start, epoch, 0, 0)
  else if (what == "append") segment_edits[i, start] += batch_size
  else if (what == "final") {
    is_final[i, start] = 1
    is_accepted[i, start] = 0
  } else if (what == "committed") committed[i] = known
  else if (what == "accept") put_segment(i, start, epoch, batch_size, 1)
  else {
    remove_segment(i, substr(what, 6))
    removed++
  }
}

function promise(i) {
  promised[i] = epoch
  open_segment[i] = ""
  epochs[epoch] = 1
  if (kind == "new") serial_of[i] = "0"
}

# What the picture says of an answer of the Ok kind.
function picture_of(i, answer) {
  if (kind == "state") return "ok||" (answer == "state 0" ? "no promise yet" : "promised " substr(answer, 7))
  if (kind == "new") return "ok|" epoch "|✓ " (answer == "new none" ? "holds nothing" : "newest segment " substr(answer, 5))
  if (kind == "prepare") return picture_of_prepared(answer)
  if (kind == "fetch") return "ok|" ((i, start) in segment_epoch ? segment_epoch[i, start] : "") "|gives " range_given(answer)
  if (kind == "read") return "ok||gives " range_given(answer)
  if (kind == "manifest") return "ok||✓ its segments"
  if (kind == "purge") return "ok|" epoch "|✓ " (removed ? "removed " removed : "nothing to remove")
  if (!((i, start) in segment_epoch)) return "ok|" epoch "|✓ ok"
  if (kind == "start") return "ok|" epoch "|✓ begins " start
  if (kind == "finalize") return "ok|" epoch "|✓ " range(start, asked[6]) " final"
  return "ok|" segment_epoch[i, start] "|✓ holds " range(start, segment_end(i, start))
}

function picture_of_prepared(answer, words, state) {
  if (split(answer, words, " ") == 4) return "ok||has none of it"
  state = words[5] == "final" ? " final" : words[7] == "yes" ? " acc." : ""
  return "ok|" words[6] "|" range(words[4], words[8]) ", epoch " words[6] state
}

function range_given(answer,    words, word_count) {
  word_count = split(answer, words, " ")
  return range(words[2], plus(words[2], word_count - 3))
}

# ## Segments of a node

function segment_end(i, m) { return plus(m, segment_edits[i, m] - 1) }

function newest_start(i, k) {
  for (k = segment_count[i]; k >= 1; k--)
    if (segment_edits[i, segment_start[i, k]] > 0) return segment_start[i, k]
  return ""
}

function put_segment(i, m, of_epoch, edits, accepted, k) {
  if (!((i, m) in segment_epoch)) {
    for (k = segment_count[i]; k >= 1 && compare(segment_start[i, k], m) > 0; k--) segment_start[i, k + 1] = segment_start[i, k]
    segment_start[i, k + 1] = m
    segment_count[i]++
  }
  segment_epoch[i, m] = of_epoch
  segment_edits[i, m] = edits
  is_accepted[i, m] = accepted
  is_final[i, m] = 0
  epochs[of_epoch] = 1
}

function remove_segment(i, m, k) {
  for (k = 1; k <= segment_count[i] && segment_start[i, k] != m; k++) continue
  for (; k < segment_count[i]; k++) segment_start[i, k] = segment_start[i, k + 1]
  delete segment_start[i, segment_count[i]--]
  delete segment_epoch[i, m]
  delete segment_edits[i, m]
  delete is_accepted[i, m]
  delete is_final[i, m]
}
