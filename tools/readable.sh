#!/bin/sh
# Whether a file can be read; where not, why, in words, and status 2.
#   tools/readable.sh COMMAND WORD FILE
# COMMAND and WORD are what was typed: make run, SCRIPT. A pipe and a terminal can be read as a file can.
set -u
no() {
    echo "$1" >&2
    exit 2
}
[ -n "$3" ] || no "$1: which file? $2=FILE is missing"
[ -e "$3" ] || no "$1: there is no file $3"
[ ! -d "$3" ] || no "$1: $3 is a folder, not a file"
[ -r "$3" ] || no "$1: $3 cannot be read"
