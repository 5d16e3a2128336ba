# A cluster's commands, handed to its keeper (launcher/keeper), which is Python's standard library alone. It proves nothing.

# Ends with the status of the keeper's answer. Only what starts processes wants the proved program.
cluster() {
  python=${QJM_PYTHON:-python3}
  if ! command -v "$python" >/dev/null; then
    say "\`$python\` isn't on the PATH, and a cluster's keeper wants Python 3.9 or later: install it (Debian's package python3)"
    exit 14
  fi
  for word in "$@"; do
    case $word in
      up | keep) is_proved || refuse_unbuilt "a cluster runs of the proved program alone"; break ;;
      status | log | tell | down | -h | --help) break ;;
    esac
  done
  QJM_PROGRAM=$program QJM_LAUNCHER=$top/qjm exec "$python" -I "$top/launcher/keeper/__main__.py" "$@"
}
