# Why the system refused something, where the launcher can see it. The program's own line tells that a call failed, and not why.

# Why a file can't be read; nothing where it can.
why_unreadable() {
  if [ -z "$1" ]; then
    echo 'an empty text is no name'
  elif [ -d "$1" ]; then
    printf '%s\n' "$1 is a folder"
  elif [ -L "$1" ] && [ ! -e "$1" ]; then
    printf '%s\n' "$1 is a link that leads nowhere, or round in a circle"
  elif [ ! -e "$1" ]; then
    case $1 in
      /*) printf '%s\n' "there is no file $1" ;;
      *) printf '%s\n' "there is no file $1 here ($(pwd))" ;;
    esac
  elif [ ! -r "$1" ]; then
    printf '%s\n' "$1 may not be read by $(user): its permissions are $(permissions_of "$1")"
  fi
}

user() {
  id -un 2>/dev/null || id -u
}

permissions_of() {
  LC_ALL=C ls -ld -- "$1" 2>/dev/null | awk '{ print $1 " " $3 ":" $4 }'
}

# Why a file of the folder that a node or a check reads can't be read; nothing where it can.
find_unreadable() {
  if [ -f "$1" ] && [ ! -r "$1" ] && [ "$(kind_of_name "$1")" != other ]; then
    why_unreadable "$1"
  fi
}

# Whether the current folder was removed: the system shows it under a name that isn't its own any more.
is_removed() {
  link=$(readlink /proc/self/cwd 2>/dev/null)
  case $link in
    *' (deleted)') [ ! . -ef "$link" ] ;;
    *) return 1 ;;
  esac
}

# Whether the current folder's file system may be read alone.
is_read_only() {
  mount=$(df -P . 2>/dev/null | awk 'NR == 2 { print $NF }')
  awk -v mount="$mount" '$2 == mount { options = $4 } END { exit "," options "," !~ /,ro,/ }' /proc/mounts 2>/dev/null
}

# How much room the current folder's file system has, where that is next to nothing.
why_no_room() {
  df -P -k . 2>/dev/null | awk 'NR == 2 && $4 < 64 { print "the file system " $NF " has no room left (" $4 * 1024 " bytes)" }'
  df -P -i . 2>/dev/null | awk 'NR == 2 && $2 > 0 && $4 == 0 { print "the file system " $NF " has no room for one more file" }'
}

# Why the folder can't be used, as far as it is seen: the first reason. `write` where it is to be written to.
why_no_folder() {
  if is_removed; then
    printf '%s\n' "the folder $(pwd) was removed, and what the node answered with it: see \"A lost machine\" in docs/OPERATING.md"
    return
  fi
  if [ ! -r . ] || [ ! -x . ]; then
    echo "this folder may not be read by $(user): its permissions are $(permissions_of .)"
    return
  fi
  each_name find_unreadable | head -n 1
  [ "$1" = write ] || return
  if is_read_only; then
    echo 'the file system of this folder is mounted so that it may only be read'
  elif [ ! -w . ]; then
    echo "this folder may not be written to by $(user): its permissions are $(permissions_of .)"
  fi
  why_no_room | head -n 1
  limit=$(ulimit -f)
  [ "$limit" = unlimited ] || echo "no file may be longer than $limit blocks of 512 bytes here (\`ulimit -f\`)"
  why_no_lock
}

# Whether the folder's file system has no locks.
why_no_lock() {
  command -v flock >/dev/null || return
  flock -s -n . true 2>/dev/null
  case $? in
    0 | 1) ;;
    *) echo "this folder's file system has no locks (\`flock\`), as some network file systems have none" ;;
  esac
}

# Why the standard input can't be read.
why_no_input() {
  [ ! -d /dev/stdin ] || echo 'the standard input is a folder'
}

# The reason behind a status, as far as it is seen: the first one.
reason_of() {
  case $1$2 in
    6*) why_no_input ;;
    8node) why_no_folder write ;;
    8fsck) why_no_folder read ;;
    8oev | 8oiv) why_unreadable "${4-}" ;;
  esac | head -n 1
}

# Whether the standard output is a pipe: where it can't be written its reader went away, who needs no word about that.
is_output_a_pipe() {
  [ -p /dev/stdout ]
}

# Reads the standard input from this file, or tells why not and ends.
read_from() {
  reason=$(why_unreadable "$1")
  if [ -n "$reason" ]; then
    say "$reason"
    echo 'error ReadFault'
    exit 6
  fi
  exec <"$1"
}

# Says on a terminal what is read from it, and how it ends.
greet_terminal() {
  [ ! -t 0 ] || say "reading $1 from the terminal, end it with Ctrl-D"
}
