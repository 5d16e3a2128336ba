# What is wrong with a frame or an edit's record of a segment's file, in one sentence. The input is the file's bytes as numbers,
# from two before the told place on (those two are an edit's size); `cause` is what the program told, `left` how many bytes the
# file has from the place on. Nothing is written where the cause isn't seen here. launcher/edits.awk has the kinds of edits.

{ for (i = 1; i <= NF; i++) byte[count++ - 2] = $i }

END {
  if (byte[0] == 165) judge_frame()
  else if (cause == "Opcode") print "the edit that begins here is of no kind: its first byte is " byte[0] ", the code of none"
  else if (cause ~ /^(Short|Field|Trailing)$/) judge_edit()
}

function number(at, many,    value) {
  while (many-- > 0) value = value * 256 + byte[at++]
  return value
}

function judge_frame(    told, entries, k, at, size) {
  told = number(1, 4)
  entries = number(13, 4)
  if (cause == "Short" && left < 5) print "the file ends inside the length of the frame that begins here"
  else if (cause == "Short") print "the frame that begins here has " told " bytes behind its length, and the file ends after " left - 5
  else if (cause == "Count") print "the frame that begins here tells " entries " entries; it has 1 to 16,384"
  else if (cause == "Order") printf "the frame that begins here tells %.0f as its first txid, and another one is next\n", number(5, 8)
  else if (cause == "Body") {
    at = 17
    for (k = 1; k <= entries && at + 1 < count - 2; k++) {
      size = number(at, 2)
      if (size == 0 || size > 4096) {
        print "in the frame that begins here the entry " k " has " size " bytes; it has 1 to 4,096"
        return
      }
      at += 2 + size
    }
  }
}

# ## Edits

function judge_edit(    code, fields, many, k, pair, why) {
  size = number(-2, 2)
  code = byte[0]
  where = 1
  if (code >= 64) {
    code -= 64
    where += 20
  }
  if (!(code in kind_name)) return
  many = split(kind_fields[kind_name[code]], fields, " ")
  for (k = 1; k <= many && why == ""; k++) {
    split(fields[k], pair, ":")
    why = fault_of(pair[2])
    if (why != "") print "the edit that begins here, a " kind_name[code] ", has a bad " pair[1] ": " why
  }
  if (why == "" && cause == "Trailing") print "the edit that begins here, a " kind_name[code] ", has " size - where " bytes after its last field"
}

# What is wrong with the field of this kind that begins at `where`, which goes past it.
function fault_of(what,    many, why) {
  if (what == "path") return text_fault(1000)
  if (what == "name") return text_fault(32)
  if (what == "8") return number_fault()
  if (what == "flag") {
    if (where + 1 > size) return "the edit ends before it"
    return byte[where++] > 1 ? "it is " byte[where - 1] ", and not 0 or 1" : ""
  }
  where += 2
  if (where > size) return "the edit ends inside it"
  if (what == "2") return ""
  for (many = number(where - 2, 2); many > 0 && why == ""; many--) why = what == "paths" ? text_fault(1000) : number_fault()
  return why
}

function number_fault() {
  where += 8
  if (where > size) return "the edit ends inside it"
  return number(where - 8, 8) > 4611686018427387904 ? "it is above 2^62" : ""
}

function text_fault(most,    long, k) {
  where += 2
  long = number(where - 2, 2)
  if (where > size || where + long > size) return "the edit ends inside it"
  if (long > most) return "it has " long " bytes, and " most " are the most"
  for (k = 0; k < long; k++) if (byte[where + k] < 33 || byte[where + k] > 126) return "its byte " k " is " byte[where + k] ", which no text has"
  where += long
  return ""
}
