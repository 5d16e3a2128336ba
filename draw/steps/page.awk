# Puts the page together that one steps through: a line `@NAME` of its frame is what stands elsewhere. The folder has the style and the
# scripts, the file `data` the data.

# A page loads nothing; one over a running cluster only the file beside it.
$0 == "@policy" {
  print "<meta http-equiv=\"Content-Security-Policy\" content=\"default-src 'none'; style-src 'unsafe-inline'; script-src 'unsafe-inline'" \
    (kind == "live" ? " 'self' file:" : "") "; img-src data:\">"
  next
}

$0 == "@title" {
  print "<title>" escape(title) "</title>"
  next
}

$0 == "@style" {
  print_colours()
  put(folder "/page.css")
  next
}

$0 == "@data" {
  print "<script id=\"data\" type=\"application/json\">"
  put(data)
  print "</script>"
  next
}

$0 == "@script" {
  many = split("run words sentences view controls live start", scripts, " ")
  for (k = 1; k <= many; k++) put(folder "/" scripts[k] ".js")
  next
}

{ print }

function put(file,    line) {
  while ((getline line < file) > 0) print line
  close(file)
}
