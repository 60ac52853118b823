# timing.sh: what the benchmarks share; they source it. A folder that goes when the script ends, the processor time of a command in seconds,
# and the least of the times in a file. A command's own status does not matter here: each script runs its program
# once before it is timed, and stops where that did not end as it should.
work=$(mktemp -d)
trap 'rm -rf "$work"' EXIT
TIMEFORMAT='%U %S'
cpu() { { time "$@" > /dev/null 2>&1 || true; } 2>&1 | awk '{ printf "%.2f\n", $1 + $2 }'; }
least() { sort -n "$1" | head -1; }
