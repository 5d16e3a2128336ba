# The page: its colours and classes, the legend, and all that is drawn, as a file of HTML or, with -v format=svg, as one SVG.

END {
  if (is_refused) exit 1
  if (NR == 0) fail("the input is empty")
  if (part != "done") {
    NR = NR + 1
    fail("the report ends before `end`")
  }
  rank_epochs()
  place_lanes()
  draw_body()
  lanes_end = is_big ? 0 : y
  ends()
  if (has_names) spaces()
  legend()
  if (title == "") title = "A quorum journal"
  page_title = escape(title) ": " count(nodes, "node") ", " count(drawn_writers, has_names ? "name node" : "writer")
  page_width = results_left + results_width + 30
  if (page_width < 1040) page_width = 1040
  if (page_width < 11 * width(page_title) + 32) page_width = 11 * width(page_title) + 32
  page_role = "role='graphics-document document' aria-labelledby='title'"
  if (format == "svg") print_svg()
  else print_html()
}

function draw_body() {
  if (is_big) sums()
  else if (merge()) {
    is_merged = 1
    plan()
    fold()
    rows()
  } else {
    reason = why()
    lanes()
  }
}

# ## What stands above the picture

# Sentences: note[1 ..], with note_class `w` where it is a warning.
function take_notes() {
  add_note("", totals())
  if (is_big) add_note("w", "The report has " lines " lines. Above " maxlines " only sums are drawn.")
  else if (is_merged)
    add_note("", "Time runs downwards. Each row is one request of a writer and what each node did with it. " \
      "Point at a mark to read the whole request and reply.")
  else
    add_note("w", "No single order fits all lists: " escape(reason) ". So each list has its own lane, and heights don't " \
      "compare between lanes.")
  if (folded_count)
    add_note("", count(folded_count, "quiet stretch", "quiet stretches") \
      (folded_count == 1 ? " is folded into one row" : " are folded into a row each") "; `./qjm draw --whole` draws every row.")
  if (strange_count)
    add_note("w", count(strange_count, "answer") " of nodes, first in line " strange_number ", " \
      (strange_count == 1 ? "isn't" : "aren't") " what the model gives; the segments below may be wrong.")
  if (differing_count)
    add_note("w", count(differing_count, "answer") " in the records differ" (differing_count == 1 ? "s" : "") \
      " from the histories (marked ≠).")
}

function add_note(class, text) {
  note_class[++note_count] = class
  note[note_count] = text
}

# Breaks sentences into lines of at most so many characters, since the text of an SVG isn't wrapped.
function break_notes(most,    k, many, w, words, line, lines_made, class_made, made) {
  for (k = 1; k <= note_count; k++) {
    many = split(note[k], words, " ")
    line = words[1]
    for (w = 2; w <= many + 1; w++) {
      if (w <= many && width(line " " words[w]) <= most) line = line " " words[w]
      else {
        lines_made[++made] = line
        class_made[made] = note_class[k]
        line = words[w]
      }
    }
  }
  note_count = made
  for (k = 1; k <= made; k++) {
    note[k] = lines_made[k]
    note_class[k] = class_made[k]
  }
}

# What the report has, counted.
function totals() {
  counted = count(lines, "line") ": " count(total["call"], "call")
  also("dropped", " lost on the way")
  also("muted", total["muted"] == 1 ? " reply lost" : " replies lost")
  also("refused", " refused")
  also("read at the end", total["read at the end"] == 1 ? " read found nothing later" : " reads found nothing later")
  also("late", total["late"] == 1 ? " late copy" : " late copies")
  also("silent", " stopped inside a node")
  also("ops kill", total["ops kill"] == 1 ? " kill" : " kills")
  also("ops restart", total["ops restart"] == 1 ? " restart" : " restarts")
  counted = counted ". Results: " count(total["= takeover"], "takeover")
  aborted = total["= takeover aborted"] + total["= takeover limit"] + total["= takeover behind"] + total["= takeover purged"]
  if (aborted) counted = counted " and " aborted " aborted"
  counted = counted ", " count(total["= acked"], "edit") " acknowledged"
  also("= refused", " refused by the namespace")
  also("= repeated", total["= repeated"] == 1 ? " repeated call" : " repeated calls")
  also("= aborted", " aborted")
  also("= inactive", " inactive")
  also("= toolong", " too long")
  also("= roll", total["= roll"] == 1 ? " roll" : " rolls")
  also("= close", total["= close"] == 1 ? " close" : " closes")
  also("= purge", total["= purge"] == 1 ? " purge" : " purges")
  also("= trim", total["= trim"] == 1 ? " trim" : " trims")
  tails = total["= tail"] + total["= tail behind"] + total["= tail purged"]
  if (tails) counted = counted ", " count(tails, "tail") (tails > total["= tail"] + 0 ? " (" (total["= tail"] + 0) " caught up)" : "")
  also("= checkpoint", total["= checkpoint"] == 1 ? " image" : " images")
  also("= reload", total["= reload"] == 1 ? " reload" : " reloads")
  return counted "."
}

function also(what, words) { if (total[what]) counted = counted ", " total[what] words }

# ## The whole

function print_html(    k) {
  print_head()
  print "<header><h1 id='title'>" page_title "</h1>"
  take_notes()
  for (k = 1; k <= note_count; k++) print "<p" (note_class[k] == "" ? "" : " class='" note_class[k] "'") ">" note[k] "</p>"
  print "</header>\n<main>\n<div class='view' role='region' aria-labelledby='title'><div class='top' aria-hidden='true'>" \
    "<svg xmlns='http://www.w3.org/2000/svg' width='" page_width "' height='34'>"
  print_names()
  print "</svg></div>"
  print "<svg xmlns='http://www.w3.org/2000/svg' id='picture' width='" page_width "' height='" y "' " page_role ">"
  print_drawn()
  print "</svg><div id='at' hidden></div></div>"
  print "<div id='told' role='region' aria-label='The mark in whole' tabindex='0' hidden><p class='hint'>Point at a mark, tap it, or " \
    "press Tab and then the arrow keys: what was asked and answered stands here in whole.</p></div>"
  print "</main>\n<script>"
  print_script()
  print "</script></body></html>"
}

# The page loads nothing, and says so to the browser.
function print_head() {
  print "<!DOCTYPE html>\n<html lang='en'><head><meta charset='utf-8'><meta name='viewport' content='width=device-width,initial-scale=1'>"
  print "<meta http-equiv='Content-Security-Policy' content=\"default-src 'none'; style-src 'unsafe-inline'; " \
    "script-src 'unsafe-inline'; img-src data:\">"
  print "<link rel='icon' href='data:,'><title>" page_title "</title>\n<style>"
  print_style()
  print_page_style()
  print "</style></head><body>"
}

function print_svg(    k, top) {
  take_notes()
  break_notes(int((page_width - 32) / 6.8))
  top = 44 + 18 * note_count
  print "<svg xmlns='http://www.w3.org/2000/svg' width='" page_width "' height='" (top + 40 + y) "' " page_role ">\n<style>"
  print_style()
  print ".h{font-size:19px;font-weight:700}.n{fill:var(--mu);font-size:13px}.w{fill:var(--bad);font-size:13px;font-weight:600}"
  print "</style>\n<rect width='100%' height='100%' style='fill:var(--bg)'/>"
  print "<text id='title' class='h' x='16' y='28'>" page_title "</text>"
  for (k = 1; k <= note_count; k++) print text_at(note_class[k] == "" ? "n" : "w", 16, 32 + 18 * k, note[k])
  print "<g transform='translate(0 " top ")'>"
  print_names()
  print "</g>\n<g transform='translate(0 " (top + 34) ")'>"
  print_drawn()
  print "</g></svg>"
}

# The names of the lanes.
function print_names(    a, i) {
  if (is_merged) print text_at("l2", 16, 22, "what is asked")
  for (a = 1; is_merged && a <= actor_count; a++)
    if (actor_name[a] != "ops")
      print "<g>" fitting("an", actor_center(a), 22, actor_name[a], actor_width - 6) "<title>" (has_names ? "name node " : "writer ") actor_name[a] "</title></g>"
  for (i = 1; i <= nodes; i++)
    print "<rect class='pl' x='" (lane_center(i) - 40) "' y='6' width='80' height='22' rx='4'/>" text_at("hn", lane_center(i), 22, "node " i)
  if (is_merged) print text_at("l2", results_left + 10, 22, "what came of it")
}

function print_drawn(    a, i, k) {
  for (a = 1; is_merged && a <= actor_count; a++)
    if (actor_name[a] != "ops") print "<path class='al' d='M" actor_center(a) " 0V" lanes_end "'/>"
  for (i = 1; i <= nodes; i++) print "<path class='ln' d='M" lane_center(i) " 0V" lanes_end "'/>"
  for (k = 1; k <= shade_count; k++) print shade[k]
  for (k = 1; k <= drawn_count; k++) print drawn[k]
}
