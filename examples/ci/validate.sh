#!/usr/bin/env bash
# Validates each run of a program by itself, for the CI of a project of your own.
# Usage: validate.sh [options] MODULE RUN.., with the options of `tlatrace validate`. RUN is a log, or a folder with all logs (*.log) of one run.
# TLATRACE names the program (without it `tlatrace` on the path); REPORTS names a folder that keeps the reports.
# Status: 0 where all runs fit, 1 where one does not, 2 where one has no answer or there is none.
set -u
words=()
while [ $# -gt 0 ]; do
    words+=("$1")
    shift
    [[ "${words[-1]}" != *.tla ]] || break
done
if [ $# -eq 0 ]; then
    sed -n '3,5s/^# //p' "${BASH_SOURCE[0]}" >&2
    exit 2
fi
reports="${REPORTS:-}"
if [ -z "$reports" ]; then
    reports="$(mktemp -d)" || exit 2
    trap 'rm -rf "$reports"' EXIT
fi
mkdir -p "$reports" || exit 2

# What a reader needs first: the answer, the last state that was reached, the line that does not fit there, and with --near what alone is wrong.
tell_misfit() {
    local answer next
    answer="$(head -n 1 "$1")"
    echo "    $answer"
    case "$answer" in
        'NOT EXPLAINED '*)
            next="${answer#* next=}"
            echo "    last state: $(grep '^{' "$1" | tail -n 1)"
            echo "    next line:  $(sed -n "${next##*:}p" "${next%:*}")"
            grep -E '^(NEAR|WITHIN) ' "$1" | sed 's/^/    /' ;;
    esac
}

misfits=0 unanswered=0
for run in "$@"; do
    logs=("$run")
    [ ! -d "$run" ] || logs=("$run"/*.log)
    report="$reports/${run//\//_}.txt"
    "${TLATRACE:-tlatrace}" validate "${words[@]}" "${logs[@]}" > "$report"
    status=$?
    case "$status" in
        0) echo "fits: $run" ;;
        1)
            misfits=$((misfits + 1))
            echo "DOES NOT FIT: $run"
            tell_misfit "$report" ;;
        *)
            unanswered=$((unanswered + 1))
            echo "NO ANSWER (status $status): $run"
            head -n 1 "$report" | sed 's/^/    /' ;;
    esac
done
echo "$# runs, $misfits that do not fit, $unanswered without an answer"
[ "$unanswered" -eq 0 ] || exit 2
[ "$misfits" -eq 0 ]
