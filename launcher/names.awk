# Writes the text of a check of a folder with one name escaped. The name is that of the environment's NAME, and may have the end
# of a line in it, so the text is looked through as a whole: the name stands behind `ok ` or `bad `, at the beginning of a line.

{ text = text $0 "\n" }

function escaped(name,    i, c, shown) {
  for (i = 1; i <= length(name); i++) {
    c = substr(name, i, 1)
    if (c == "\\") shown = shown "\\\\"
    else if (c == "\n") shown = shown "\\n"
    else if (c == "\t") shown = shown "\\t"
    else if (c ~ /[\001-\037\177]/) shown = shown octal(c)
    else shown = shown c
  }
  return shown
}

function octal(c,    k) {
  for (k = 1; k < 128; k++) if (sprintf("%c", k) == c) return sprintf("\\%03o", k)
  return "?"
}

function put(front, behind,    at) {
  at = index("\n" text, "\n" front ENVIRON["NAME"] behind)
  if (at) text = substr(text, 1, at - 1) front escaped(ENVIRON["NAME"]) substr(text, at + length(front ENVIRON["NAME"]))
  return at
}

END {
  if (!put("bad ", " 1 0 0\n")) put("ok ", "\n")
  printf "%s", text
}
