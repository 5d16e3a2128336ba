# How many edits a segment's file has, by what its frames tell: the input is its bytes behind the header, as numbers.

{ for (i = 1; i <= NF; i++) take($i) }

# Takes a byte at its place in its frame. Where that begins with no seal the frames are over.
function take(byte) {
  if (place++ == 0 && byte != 165) exit
  if (place >= 2 && place <= 5) size = size * 256 + byte
  else if (place >= 14 && place <= 17) entries = entries * 256 + byte
  if (place < 17 || place < 5 + size) return
  count += entries
  place = size = entries = 0
}

END { print count + 0 }
