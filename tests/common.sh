# shellcheck shell=bash disable=SC2034
# What the scripts of the folders here share: the program that is tried, a folder to work in, and the lines that say how it went.
# The program is $SYSVMSG; without it, the one that tools/program names, which is built without proofs if there is none.
# --help prints the comment at the head of the script.
if [ "$1" = --help ]; then
    awk 'NR > 1 && !/^#/ { exit } NR > 1 && !/^# shellcheck/ { sub(/^# ?/, ""); print }' "$0"
    exit
fi
top=$(cd "$(dirname "${BASH_SOURCE[0]}")/.." && pwd)
program=${SYSVMSG:-$("$top/tools/program" </dev/null)}
[ -n "$program" ] || exit 1
words=("$@")
work=$(mktemp -d)
chmod 755 "$work"
failed=0

# Whether the program was built without proofs, by `rt try`: with an allocator that checks each use and keeps freed memory.
is_checked() { grep -qa __asan_init "$program"; }

# is_chosen NAME: whether NAME has each word of the command line in it. All names are chosen if there are no words.
is_chosen() {
    local word
    for word in "${words[@]}"; do [[ $1 == *"$word"* ]] || return; done
}

ok() { echo "ok $1"; }

# fail NAME WHY
fail() {
    echo "FAILED $1: $2"
    failed=1
}

# skip NAME WHY
skip() { echo "skipped $1: $2"; }

# same NAME WANTED GOT
same() {
    if [ "$2" = "$3" ]; then
        ok "$1"
    else
        fail "$1" "wanted $(printf %q "$2"), got $(printf %q "$3")"
    fi
}

# refuse_each NAME FUNCTION WORDS ..: calls FUNCTION FIRST STEP WORDS .. for each FIRST from 1 to STEP at once, where STEP
# is the number of processors. Each call prints what went wrong, and below it how many growths it refused. Sets count to
# the sum of these, and returns whether it is above 0 and nothing went wrong; if not, NAME has failed.
refuse_each() {
    local step first said pids=
    step=$(nproc)
    count=0
    for first in $(seq "$step"); do
        "$2" "$first" "$step" "${@:3}" >"$work/said.$first" &
        pids="$pids $!"
    done
    # shellcheck disable=SC2086
    wait $pids
    for first in $(seq "$step"); do
        count=$((count + $(tail -n 1 "$work/said.$first")))
    done
    said=$(for first in $(seq "$step"); do sed '$d' "$work/said.$first"; done | head -n 1)
    [ -n "$said" ] || [ "$count" -gt 0 ] || said="it met no growth"
    [ -z "$said" ] || fail "$1" "$said"
    [ -z "$said" ]
}
