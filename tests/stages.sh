# What ./test and tests/valgrind share: stages, what they count, and the last line that totals them. Each sets `log` to a file before its first stage.
passed=0 failed=0

stage() { printf '\n== %s (%d s so far)\n' "$1" "$SECONDS"; }

# Counts a stage's own 'PASSED FAILED'. One that ends with a failure and counted none has failed, and so has one that tried nothing.
count() { # STATUS 'PASSED FAILED'
    local p=0 f=0
    read -r p f <<<"$2"
    if [ "${f:-0}" -eq 0 ] && { [ "$1" -ne 0 ] || [ "${p:-0}" -eq 0 ]; }; then f=1; fi
    passed=$((passed + p)) failed=$((failed + f))
}

# 'PASSED FAILED' of what is logged: by its last line, and by the lines in which cargo totals each program.
last_line() { tail -n 1 "$log" | sed -n 's/^\([0-9]*\) passed, \([0-9]*\) failed$/\1 \2/p'; }
cargo_lines() {
    sed -n 's/^test result: .* \([0-9]*\) passed; \([0-9]*\) failed;.*/\1 \2/p' "$log" | awk '{ p += $1; f += $2 } END { print p + 0, f + 0 }'
}

# Counts a command that passes or fails as a whole.
one() { # WHAT COMMAND...
    if "${@:2}"; then
        echo "$1"
        passed=$((passed + 1))
    else
        echo "$1: FAILED"
        failed=$((failed + 1))
    fi
}

# Whether a command prints what a file holds.
prints() { # FILE COMMAND...
    "${@:2}" >"$log" && diff "$1" "$log"
}

need() { # COMMAND WHAT-IT-IS
    command -v "$1" >/dev/null 2>&1 && return
    echo "missing: $1, $2"
    failed=$((failed + 1))
}

finish() {
    printf '\n%d passed, %d failed\n' "$passed" "$failed"
    [ "$failed" -eq 0 ] && [ "$passed" -gt 0 ]
    exit
}
