# Sourced by the scripts that count what they try. Their last line is 'N passed, N failed', with ', N
# skipped' if something can't be tried here. Of each such thing they print 'skipped: WHAT, since
# REASON'.
# shellcheck shell=bash
passed=0
failed=0
skipped=0

skip() {
  echo "skipped: $1, since $2"
  skipped=$((skipped + 1))
}

# has COMMAND WHAT..: whether COMMAND exists; if not, it skips each WHAT
has() {
  local command=$1 what
  shift
  command -v "$command" > /dev/null && return
  for what in "$@"; do skip "$what" "there is no $command"; done
  return 1
}

# step WHAT COMMAND..: adds the counts of its last line, or passes if that has no counts. Its output
# is in the folder `room`; `under` says more of WHAT. If FIRST is set, a failure ends the script
step() {
  local what=$1${under:-} last
  shift
  if "$@" > "$room/said" 2>&1; then
    last=$(tail -n 1 "$room/said")
    [[ $last =~ ^([a-z0-9_]+: )?([0-9]+)\ passed,\ [0-9]+\ failed$ ]]
    passed=$((passed + ${BASH_REMATCH[2]:-1}))
  else
    failed=$((failed + 1))
    echo "failed: $what"
    tail -n 20 "$room/said"
    [ -z "${FIRST:-}" ] || exit 1
  fi
}

# sum: prints the counts, and ends the script
sum() {
  if [ "$skipped" -gt 0 ]; then
    echo "$passed passed, $failed failed, $skipped skipped"
  else
    echo "$passed passed, $failed failed"
  fi
  [ "$failed" -eq 0 ]
  exit
}
