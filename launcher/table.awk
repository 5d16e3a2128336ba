# Reads a table of docs/FORMATS.md. The line `<!-- table: NAME -->` stands before it. Of the row that begins with the key the
# other cells are written, a line each, an empty one too; without a key the first two of each row are, with `whole` all four, the
# key in its own width.

/^<!-- table: / { here = ($0 == "<!-- table: " table " -->"); row = 0; next }
here && /^\|/ {
  if (++row < 3) next # the head and its line
  line = $0
  gsub(/`/, "", line)
  sub(/^\| */, "", line); sub(/ *\|$/, "", line)
  count = split(line, cells, / *\| */)
  if (key == "") { printf "%" (wide ? wide : 4) "s  %s\n", cells[1], whole ? all_cells() : cells[2]; next }
  if (cells[1] == key) for (i = 2; i <= count; i++) print cells[i]
  next
}
here && row && !/^\|/ { here = 0 }

# The cells behind the key as one text.
function all_cells() { return cells[2] (cells[3] == "" ? "" : " (" cells[3] ")") ": " cells[4] }
