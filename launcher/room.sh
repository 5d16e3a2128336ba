# Temporary files, in the folder of TMPDIR or in /tmp. A node, a check of a folder, and a script that stands in a file want none,
# but to explain a node's request line that is bad.

# The folder of this run's temporary files, where there is one.
room=''

# Makes that folder, where it isn't there yet. It goes when the launcher ends.
make_room() {
  [ -z "$room" ] || return 0
  room=$(LC_ALL=C mktemp -d 2>&1) || refuse_room "$room"
  trap 'rm -rf "$room"' EXIT
  trap 'exit 130' INT
  trap 'exit 143' TERM HUP
}

# Ends the launcher where no file in the room can be written.
require_room() {
  why=$(LC_ALL=C head -c 1 /dev/zero 2>&1 >"$room/probe") || refuse_room "$why"
}

# Ends the launcher because its temporary files can't be written, with what a command said of that.
refuse_room() {
  say "the launcher's own temporary files couldn't be written in ${TMPDIR:-/tmp}: ${1##*: }"
  exit "$NO_ROOM"
}
