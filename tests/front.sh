# What the tests of the front have in common: asking it, and judging its status and what it writes. Sets asked, the
# number of times. Wants tests, top, work and folder to be set.
front=$top/ragwashin
asked=0
line='
'

fail() { # WHAT
    echo "$1; on standard output:"
    head -c 600 "$work/got"
    echo "and on standard error:"
    head -c 600 "$work/said"
    exit 1
}

# Asks the front, and leaves its status in 'status'.
ask() { # [WORD [FILE..]]
    timeout 300 "$front" "$@" >"$work/got" 2>"$work/said"
    status=$?
    asked=$((asked + 1))
}

gives() { # STATUS [WORD [FILE..]]
    wanted=$1
    shift
    ask "$@"
    [ "$status" -eq "$wanted" ] || fail "$(echo "$*" | head -c 200): status $status, not $wanted"
}

# An answer brings no message, and status 3 always brings one.
quiet() { gives "$@" && [ ! -s "$work/said" ] || fail "$*: a message"; }
loud() { gives 3 "$@" && [ -s "$work/said" ] || fail "$*: no message"; }

wrote() { # ANSWERS
    printf '%s' "$1" | cmp -s - "$work/got" || fail "wanted '$1'"
}
