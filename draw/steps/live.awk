# A status of a running cluster, a line of JSON, is added to those that a page reads: the last of them that differ, numbered, and when
# they were written (`now`, seconds; `clock`, as one reads it). What is only a time or a process's number makes no difference. The file
# `kept` has them from run to run, and how many came before the first.

BEGIN {
  most = 100
  if ((getline line < kept) > 0) from = line
  while ((getline line < kept) > 0) status[++count] = line
  close(kept)
}

!/^\{.*\}$/ {
  is_refused = 1
  exit
}

{
  if (count == 0 || bare(status[count]) != bare("{" $0)) status[++count] = with_clock($0)
}

END {
  if (is_refused) exit 1
  first = count > most ? count - most + 1 : 1
  print from + first - 1 > kept
  for (k = first; k <= count; k++) print status[k] > kept
  printf "qjmStatuses({\"from\":%d,\"at\":%d,\"statuses\":[\n", from + first - 1, now
  for (k = first; k <= count; k++) print status[k] (k < count ? "," : "")
  print "]})"
}

# (a script is no place for a `<`)
function with_clock(text) {
  gsub(/</, "\\u003c", text)
  return "{\"at\":\"" clock "\"," substr(text, 2)
}

# A status without what always changes.
function bare(text) {
  sub(/^\{"at":"[^"]*",/, "", text)
  sub(/^\{+/, "", text)
  gsub(/</, "\\u003c", text)
  gsub(/"(answered|listed|age|silent|told|heard|clock_ahead|pid)": *(null|-?[0-9.]+)/, "", text)
  return text
}
