# How a test script counts: `expect` and `tally` add to the counts, and `counted` prints its last line.
passed=0 failed=0
said=$(mktemp)
trap 'rm -f "$said"' EXIT

# expect WHAT COMMAND..: one test; what the command prints is shown only if it fails
expect() {
  if "${@:2}" > "$said" 2>&1; then
    echo "ok: $1"
    passed=$((passed + 1))
  else
    echo "FAILED: $1"
    cut -c -300 "$said"
    failed=$((failed + 1))
  fi
}

# tally WHAT COMMAND..: the tests that the command's own last line counts; what it prints is shown only if one fails
tally() {
  local status=0 before=$failed
  "${@:2}" > "$said" 2>&1 || status=$?
  count "$1" "$status" "$(tail -n 1 "$said")"
  [[ $failed -eq $before ]] || cut -c -300 "$said"
}

# count WHAT STATUS LAST: adds the counts of a command's last line, 'N passed, M failed'. A command that ends otherwise, or
# whose exit status contradicts its counts, is a failure.
count() {
  echo "$1: $3"
  if [[ $3 =~ ^([0-9]+)\ passed,\ ([0-9]+)\ failed$ ]]; then
    passed=$((passed + BASH_REMATCH[1]))
    failed=$((failed + BASH_REMATCH[2]))
    [[ $2 -eq 0 || ${BASH_REMATCH[2]} -gt 0 ]] && return
  fi
  echo "$1 ended with status $2 and no such count"
  failed=$((failed + 1))
}

counted() {
  echo "$passed passed, $failed failed"
  [[ $failed -eq 0 ]]
}
