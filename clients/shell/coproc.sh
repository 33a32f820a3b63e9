#!/usr/bin/env bash
set -eu # Runs a store as a coprocess. Usage: coproc.sh PROGRAM FILE
coproc STORE { exec "$1" --stream --clean-when-full --disk "$2"; }
program=${STORE_PID:-} # bash unsets STORE_PID when the program ends
answer() { # reads a line of an answer; fails if it is a refusal, after which the program continues
    IFS= read -r answer <&"${STORE[0]}" || return
    case $answer in fault\ * | line\ *) echo "$answer" >&2 && return 1 ;; esac
}
ask() { [[ ${STORE[1]:-} ]] && printf '%s\n' "$@" >&"${STORE[1]}" && answer; }
ask 'put greeting hello' go
ask 'get greeting' go; echo "the value is ${answer#value }"
ask flush; while [[ $answer == cleaned* ]]; do answer; done
echo "$answer"
exec {STORE[1]}>&- && wait "$program" # the program ends when its input ends
