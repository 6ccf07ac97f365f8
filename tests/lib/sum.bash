# What .ci/run reads in by `source`: a sum of what passed and what failed, and a folder for the files of a run.
passed=0 failed=0
room=$(mktemp -d)

trap 'rm -rf -- "$room"' EXIT
trap 'exit 130' INT

# Runs a command whose last line is 'N passed, M failed', and adds these; one that doesn't end so has failed, and so has
# one that fails and names no failure. (`rt ci NAME..` says behind its numbers that it isn't the gate.)
add() {
  local status=0
  "$@" | tee -- "$room/said" || status=$?
  if [[ $(tail -n 1 -- "$room/said") =~ ^([0-9]+)\ passed,\ ([0-9]+)\ failed(\ \(.*\))?$ ]]; then
    passed=$((passed + BASH_REMATCH[1])) failed=$((failed + BASH_REMATCH[2]))
    [ "$status" = 0 ] || [ "${BASH_REMATCH[2]}" != 0 ] || failed=$((failed + 1))
  else
    failed=$((failed + 1))
  fi
}

# Says the sum, and ends with the status 0, or 1 if anything failed.
end_with_sum() {
  echo "$passed passed, $failed failed"
  [ "$failed" = 0 ] || exit 1
  exit 0
}
