#!/usr/bin/env bash
# Asks the toolchain for what a command runs; where nothing has changed since it was made, nothing is asked.
#   tools/rattle.sh COMMAND runner     target/bin/runner
#   tools/rattle.sh COMMAND wear       target/bin/wear
#   tools/rattle.sh COMMAND run_rewrite   target/bin/run_rewrite
#   tools/rattle.sh COMMAND archive    target/staticlib/libpod.a, the functions of `pod` and those of `player`
#   tools/rattle.sh COMMAND programs   the three programs as an `rt ci` that has just passed left them, so that nothing is proved again
# COMMAND is who asks. Which crates are proved, and how many of those that are needed, goes to standard error as it comes.
set -u
cd "$(dirname "$0")/.." || exit 2
command=$1
what=$2
programs='runner wear run_rewrite'

# of WORD: what it stands on, and what it is.
of() {
    case $1 in
    runner | wear | run_rewrite) tops=$1 made=target/bin/$1 ;;
    archive) tops='pod player' made=target/staticlib/libpod.a ;;
    *) echo "tools/rattle.sh: there is nothing of the name $1" >&2; exit 2 ;;
    esac
    kept=target/rattle.$1.sources
}

# crates NAME..: those crates of crates.txt and all that they stand on.
crates() {
    awk -F: -v tops="$*" '
        /^[a-z]/ { split($1, head, " "); needs[head[1]] = $2 }
        function reach(name,   list, n, i) {
            if (!(name in needs) || name in seen) return
            seen[name] = 1
            print name
            n = split(needs[name], list, " ")
            for (i = 1; i <= n; i++) reach(list[i])
        }
        END {
            m = split(tops, own, " ")
            for (k = 1; k <= m; k++) reach(own[k])
        }' crates.txt
}

# What it is made of, in a number: every file of its crates but the must-fail edits and what rt keeps there; and what was made, in another.
sources() {
    { echo crates.txt; crates $tops | while IFS= read -r name; do find "crates/$name" \( -path "crates/$name/must-fail" -o -path "crates/$name/out" \) -prune -o -type f -print; done | LC_ALL=C sort; } |
        tr '\n' '\0' | xargs -0 sha256sum | sha256sum
}

made_of() {
    echo "$1"
    sha256sum <"$made"
}

is_made() {
    [ -f "$made" ] && [ -f "$kept" ] && [ "$(cat "$kept")" = "$(made_of "$now")" ]
}

# put FILE: it is what was to be made.
put() {
    mkdir -p "${made%/*}" && cp "$1" "$made.new" && mv -f "$made.new" "$made" && made_of "$now" >"$kept"
}

# The toolchain's lines as they come: a crate that has just been proved is said. What it stands on was proved before it.
progress() {
    local all line name='' proved=''
    all=$(crates $tops | wc -l)
    while IFS= read -r line; do
        if [[ $line =~ ^crate\ ([a-z0-9_]+):\ modules\ loaded=[0-9]+\ checked=[1-9] ]]; then
            name=${BASH_REMATCH[1]}
        elif [[ $line == logic=proved* && -n $name ]]; then
            proved+=" $name"
            name=
            echo "$command: ${proved##* } is proved, $(crates $proved | wc -l) of $all crates"
        fi
    done
}

# rt runs what it builds: here on nothing.
ask_program() {
    (cd "crates/$1" && rt run </dev/null) && put "crates/$1/out/$1"
}

# One archive, for any x86-64: what rt compiles unasked is for x86-64-v2, and an archive cannot see where it runs. The two are compiled on their own and
# joined: together the compiler would keep the frame's code apart from its call for the player's sake, and the pod's calls would take more stack.
ask_archive() {
    local top joined=target/staticlib/joined
    for top in $tops; do (cd "crates/$top" && rt lib --cpu x86-64) || return; done
    rm -rf "$joined" && mkdir -p "$joined" && cp crates/pod/out/libpod.a "$joined/libpod.a" && cp crates/player/out/libplayer.a "$joined/" &&
        (cd "$joined" && ../../../tools/host.sh ar x libplayer.a player.o && ../../../tools/host.sh ar r libpod.a player.o) &&
        put "$joined/libpod.a" && rm -r "$joined"
}

# What rt ci builds of a program for its run stands in the crate's out/.
if [ "$what" = programs ]; then
    for name in $programs; do
        of "$name"
        now=$(sources)
        is_made || put "crates/$name/out/$name" || exit 2
    done
    exit 0
fi
of "$what"
now=$(sources)
is_made && exit 0
if ! command -v rt >/dev/null 2>&1; then
    echo "$command: the Rattle toolchain is missing: there is no rt on the path" >&2
    exit 2
fi
mkdir -p target 2>/dev/null && [ -w target ] || { echo "$command: $made is to be built, and the folder target cannot be written" >&2; exit 2; }
[ -f "$made" ] || echo "$command: $made is proved and built first, which takes some minutes" >&2
"ask_$([ "$what" = archive ] && echo archive || echo program)" "$what" 2>&1 | tee "target/rattle.$what.log" | progress >&2
[ "${PIPESTATUS[0]}" -eq 0 ] && [ -f "$made" ] && exit 0
cat "target/rattle.$what.log" >&2
echo "$command: $made could not be proved and built" >&2
exit 2
