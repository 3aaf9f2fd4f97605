# How a test in sh counts its checks, which reads this file by `.`: each that fails is named, and the last line is 'N passed, M failed', which
# tests/all reads. Where `quiet` is set, a check that holds isn't named.
passed=0
failed=0
quiet=

# Counts a check, which holds where it has no problems.
verdict() { # NAME PROBLEMS
    if [ -z "$2" ]; then
        passed=$((passed + 1))
        [ -n "$quiet" ] || echo "ok      $1"
    else
        failed=$((failed + 1))
        printf 'FAILED  %s:%.2000s\n' "$1" "$2"
    fi
}

# Counts the checks of another test, whose words are in the file `said`, by its last line.
counted() { # NAME STATUS
    good=$(sed -n '$s/^\([0-9]*\) passed, [0-9]* failed$/\1/p' said)
    bad=$(sed -n '$s/^[0-9]* passed, \([0-9]*\) failed$/\1/p' said)
    grep '^FAILED' said
    passed=$((passed + ${good:-0}))
    failed=$((failed + ${bad:-0}))
    verdict "$1 (${good:-no} checks)" "$([ "$2" = 0 ] && [ "${good:-0}" -gt 0 ] && [ "$bad" = 0 ] || { echo "status $2"; tail -n 5 said; })"
}

# Writes the last line. The status is 0 where something passed and nothing failed.
ended() {
    echo "$passed passed, $failed failed"
    [ "$failed" = 0 ] && [ "$passed" != 0 ]
}
