# Sourced by the gate and by the C tests. counted runs what ends with a line 'N passed, M failed', shows it, and adds its counts to passed and
# failed; a status that is not 0 counts as one failure where the line tells of none, and so does a missing line.
log=$(mktemp) || exit 2
trap 'rm -f "$log" "$log.status"' EXIT
passed=0
failed=0

counted() {
    { "$@" 2>&1; echo $? >"$log.status"; } | tee "$log"
    counts=$(tail -n 1 "$log" | sed -n 's/^\([0-9]*\) passed, \([0-9]*\) failed$/\1 \2/p')
    counts=${counts:-0 1}
    passed=$((passed + ${counts% *}))
    failed=$((failed + ${counts#* }))
    [ "$(cat "$log.status")" -eq 0 ] || [ "${counts#* }" -gt 0 ] || failed=$((failed + 1))
}
