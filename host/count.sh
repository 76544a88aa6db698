# Sourced by every script that counts: its last line is 'N passed, M failed', and it ends with 0 only if M is 0 and N is
# not. If something was skipped, the line before it is 'skipped: N steps (WHY; WHY)'; with KEZ_WHOLE=1 what would be
# skipped has failed.
#   step NAME COMMAND..   runs it and adds what its last two lines count; one that says no count is one check, by its
#                         exit status
#   check NAME            one check, by the exit status of the command before it
#   fail WORDS            one check that failed, and why
#   skip N WORDS          N steps or checks that are not made, and why
#   there TOOL N WORDS    is the tool on the PATH? If not, N are skipped: the words say what
#   counted               the last lines, and the exit status: the script ends with it
passed=0
failed=0
skipped=0
skips=

step() {
    local name=$1 log status said left
    shift
    log=$(mktemp) || { fail "$name: there is no room for its output"; return; }
    echo "== $name"
    "$@" 2>&1 | tee "$log"
    status=${PIPESTATUS[0]}
    said=$(tail -n 1 "$log" | grep -E '^[0-9]+ passed, [0-9]+ failed$')
    left=$(tail -n 2 "$log" | sed -n '1s/^skipped: \([0-9][0-9]*\) steps\{0,1\} (\(.*\))$/\1 \2/p')
    rm -f "$log"
    if [ -n "$said" ] && [ -n "$left" ]; then left_out "${left%% *}" "${left#* }"; fi
    set -- ${said//[!0-9 ]/}
    if [ -z "$said" ]; then
        if [ "$status" = 0 ]; then set -- 1 0; else set -- 0 1; fi
    elif [ "$status" != 0 ] && [ "$2" = 0 ]; then
        set -- "$1" 1
    fi
    passed=$((passed + $1))
    failed=$((failed + $2))
}

check() {
    if [ "$?" = 0 ]; then passed=$((passed + 1)); else fail "$1: failed"; fi
}

fail() {
    failed=$((failed + 1))
    echo "$1"
}

# left_out N WORDS: adds to what is skipped, or has failed
left_out() {
    if [ -n "${KEZ_WHOLE:-}" ]; then
        failed=$((failed + $1))
        echo "failed, since KEZ_WHOLE is set and nothing may be skipped: $2"
    else
        skipped=$((skipped + $1))
        skips="${skips:+$skips; }$2"
    fi
}

skip() {
    echo "-- skipped: $2"
    left_out "$1" "$2"
}

there() {
    command -v "$1" > /dev/null || { skip "$2" "no $1: $3"; return 1; }
}

counted() {
    [ "$skipped" = 0 ] || echo "skipped: $skipped step$([ "$skipped" = 1 ] || echo s) ($skips)"
    echo "$passed passed, $failed failed"
    [ "$failed" = 0 ] && [ "$passed" != 0 ]
}
