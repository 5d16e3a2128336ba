# Compares the answers of a program's cases (the second file) with those that are kept (the first). An answer begins with the line
# `case NAME`. Names each case that differs, with both answers, and counts the cases whose name has the word.

/^case / {
  name = substr($0, 6)
  if (FILENAME == ARGV[1]) kept[name] = ""
  else { names[++count] = name; told[name] = "" }
  next
}

FILENAME == ARGV[1] { kept[name] = kept[name] $0 "\n"; next }

{ told[name] = told[name] $0 "\n" }

function tell_difference(name) {
  printf "%s: the case `%s` differs\n", program, name
  printf "-- kept:\n%s-- answered:\n%s", (name in kept) ? kept[name] : "(none)\n", (name in told) ? told[name] : "(none)\n"
}

function is_meant(name) { return word == "" || index(name, word) || index(program, word) }

END {
  for (i = 1; i <= count; i++) {
    if (!is_meant(names[i])) continue
    ran++
    if (!(names[i] in kept) || kept[names[i]] != told[names[i]]) { differ++; tell_difference(names[i]) }
  }
  for (name in kept) {
    if (is_meant(name) && !(name in told)) { differ++; tell_difference(name) }
  }
  printf "%s: %d cases, %d differ\n", program, ran, differ
  exit differ > 0
}
