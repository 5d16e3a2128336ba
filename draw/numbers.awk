# Numbers as texts: an awk's own are exact up to 2^53 only, and a report has numbers up to 2^62.

# -1, 0 or 1, as a is less, equal or greater.
function compare(a, b) {
  if (length(a) != length(b)) return length(a) < length(b) ? -1 : 1
  if ((a "") == (b "")) return 0
  return (a "") < (b "") ? -1 : 1
}

function plus(a, n,    low, carry) {
  if (length(a) < 15) return sprintf("%.0f", a + n)
  low = substr(a, length(a) - 8) + n
  carry = 0
  while (low >= 1000000000) {
    low -= 1000000000
    carry++
  }
  while (low < 0) {
    low += 1000000000
    carry--
  }
  return sprintf("%.0f%09d", substr(a, 1, length(a) - 9) + carry, low)
}

function range(first, last) { return (first "") == (last "") ? first : first "–" last }
