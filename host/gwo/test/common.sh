# What the test scripts of gwo share; it is read by them.
#   GWO     the program under test, a command in words that are parted by blanks
#   work    a folder of its own
# The folder of the project is the current one.
set -u
passed=0
failed=0
work=$(mktemp -d)
trap 'stop_server; rm -rf "$work"' EXIT
trap : PIPE
server=
patience=120

# check NAME COMMAND..: what the command says is shown when it fails.
check() {
    local name=$1
    shift
    if "$@" >"$work/said" 2>&1; then
        passed=$((passed + 1))
        echo "ok $name"
    else
        failed=$((failed + 1))
        echo "FAILED $name"
        head -n 30 "$work/said" | cut -c 1-200
    fi
    stop_server
}

conclude() {
    echo "$passed passed, $failed failed"
    [ "$failed" -eq 0 ]
}

# gwo WORD..: the program; what it writes is in $work/out and $work/err, its status in $status.
gwo() {
    status=0
    timeout "$patience" $GWO "$@" >"$work/out" 2>"$work/err" || status=$?
}

# ends STATUS: so it ended; otherwise what it wrote is shown.
ends() {
    [ "$status" -eq "$1" ] && return
    echo "status $status, want $1"
    head -n 5 "$work/out" "$work/err"
    return 1
}

# says WORDS: they are on standard error.
says() {
    grep -qF -- "$1" "$work/err" && return
    echo "standard error lacks: $1"
    cat "$work/err"
    return 1
}

# prints WORDS: they are on standard output.
prints() {
    grep -qF -- "$1" "$work/out" && return
    echo "standard output lacks: $1"
    head -n 20 "$work/out"
    return 1
}

# prints_nothing: standard output is empty.
prints_nothing() {
    [ ! -s "$work/out" ] && return
    echo "standard output is not empty:"
    head -n 5 "$work/out"
    return 1
}

# same FILE FILE
same() {
    cmp "$1" "$2"
}

# start_server WORD..: gwo serve on a free port; $port is it.
start_server() {
    : >"$work/serve"
    $GWO serve --port 0 "$@" 2>"$work/serve" >"$work/serve.out" &
    server=$!
    local tries=0
    while ! grep -q 'waiting on' "$work/serve"; do
        kill -0 "$server" 2>/dev/null && [ $((tries += 1)) -lt 600 ] || { cat "$work/serve"; return 1; }
        sleep 0.05
    done
    port=$(sed -n 's/.*waiting on 127.0.0.1:\([0-9]*\):.*/\1/p' "$work/serve")
}

# stop_server: Ctrl-C, and its status in $status.
stop_server() {
    [ -n "$server" ] || return 0
    status=0
    kill -INT "$server" 2>/dev/null
    wait "$server" || status=$?
    server=
}

# served WORDS: the server has said them by now, or does within a while.
served() {
    local tries=0
    while ! grep -qE -- "$1" "$work/serve"; do
        [ $((tries += 1)) -lt 200 ] || { echo "the server does not say: $1"; cat "$work/serve"; return 1; }
        sleep 0.05
    done
}
