# A story's sentences at the steps of its lines. The file `story` has a line for each line of the script: how many lines the record of
# each actor has once it is played, as `a=12 b=3`, a tab, and its sentences (launcher/tour.sh writes it).
#
# telling[t] is what is told of the t-th line that left something in a record, with what the lines before it had to say; told_up_to[t, a]
# the last line of actor a's record then. What stands before the first such line is told at the begin.

function read_story(    line, at) {
  while (story != "" && (getline line < story) > 0) {
    at = index(line, "\t")
    take_telling(substr(line, 1, at - 1), substr(line, at + 1))
  }
}

function take_telling(counts, text,    each, many, k, pair, grown) {
  many = split(counts, each, " ")
  for (k = 1; k <= many; k++) {
    split(each[k], pair, "=")
    if (pair[2] > last_count[pair[1]]) grown = 1
    last_count[pair[1]] = pair[2]
  }
  if (grown && !telling_count) {
    telling[0] = waiting
    waiting = ""
  }
  waiting = waiting (waiting == "" || text == "" ? "" : " ") text
  if (!grown) return
  telling[++telling_count] = waiting
  waiting = ""
  for (k in actor_name) told_up_to[telling_count, k] = last_count[actor_name[k]] + 0
}

# What is told at event e of actor a; nothing where that is told already.
function telling_at(a, e,    t) {
  for (t = told_at[a] > 1 ? told_at[a] : 1; t <= telling_count && told_up_to[t, a] < e; t++) continue
  told_at[a] = t
  if (t > telling_count || t == last_telling) return ""
  last_telling = t
  return telling[t]
}

# Notes that the next step is event e of actor a.
function tell_event(a, e,    text) {
  text = telling_count ? telling_at(a, e) : ""
  if (text == "") return
  story_step[++story_count] = step_count + 1
  story_text[story_count] = text
}

function write_story(    k) {
  printf "\"story\":[[0,%s]", quoted(telling[0])
  for (k = 1; k <= story_count; k++) printf ",\n[%d,%s]", story_step[k], quoted(story_text[k])
  print "],"
}
