# Completion of ./qjm in bash: commands, the tools of oev and oiv, scripts, and the files of the current folder that a tool
# takes. To be read by the shell (in ~/.bashrc, say):
#
#   . /path/to/launcher/complete.bash

# The words that may stand at the cursor, behind those before it.
_qjm_words() {
  case $COMP_CWORD,${COMP_WORDS[1]-} in
    1,*) echo 'play run piped mirror boot gen node serve lead cluster fsck judge states oev oiv draw tour rules test help --build --package --use --version --help' ;;
    2,help) echo 'play run piped mirror boot gen node serve lead cluster fsck judge states oev oiv draw tour rules test --build --package --use --version' ;;
    2,oev) echo 'list stats json back' ;;
    2,oiv) echo 'delimited sizes json ls' ;;
    2,node) echo '--unchecked' ;;
    2,--version) echo '--check' ;;
    2,cluster) echo 'up down status check log failover auto restart tell checkpoint trim kill hold release adopt metrics keep' ;;
    2,draw) echo '--steps --live --svg --whole' ;;
    *,draw) echo '--svg --whole' ;;
    2,tour) echo 'two-writers fenced-writer torn-write late-copy standby purge' ;;
  esac
}

_qjm() {
  local word=${COMP_WORDS[COMP_CWORD]} pattern=
  mapfile -t COMPREPLY < <(compgen -W "$(_qjm_words)" -- "$word")
  case $COMP_CWORD,${COMP_WORDS[1]-} in
    2,play | 2,run | 2,piped | 2,mirror | 2,boot) pattern='*.qjm' ;;
    3,oev) [ "${COMP_WORDS[2]}" = back ] && pattern='*' || pattern='edits_*' ;;
    3,oiv) pattern='fsimage_*' ;;
    2,--use) pattern='qjm[-_]*' ;;
  esac
  [ -z "$pattern" ] || mapfile -t COMPREPLY < <(compgen -f -X "!$pattern" -- "$word"; compgen -d -- "$word")
}

complete -o filenames -F _qjm qjm ./qjm ../qjm
