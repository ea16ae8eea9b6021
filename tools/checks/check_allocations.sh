#!/usr/bin/env bash
# Refuses each allocation of a run in turn, of `fold` and `replay` over the examples. Each run has to end with the whole
# text, or with status 9 after a prefix of it and the last line of that status.
#
# The built program gets its memory by the C library's `malloc` and `realloc` alone. A small library that is loaded
# before that one (`refusing.c`) counts these calls, in a file since the program runs nothing of it at its end, and refuses
# those of the given numbers: each alone, and each with all after it.
set -eu
cd "$(dirname "$0")/../.."
# Builds the program where that has to be.
./signals </dev/null >/dev/null || [ $? = 1 ]
program=crates/signals/out/signals
folder=$(mktemp -d)
trap 'rm -rf "$folder"' EXIT

cc -shared -fPIC -o "$folder/refusing.so" tools/checks/refusing.c

# Runs the program with the calls from FIRST to LAST refused.
run_refused() { # FIRST LAST INPUT OUTPUT WORDS..
    head -c 8 /dev/zero >"$folder/count"
    COUNT=$folder/count FIRST=$1 LAST=$2 LD_PRELOAD=$folder/refusing.so "$program" "${@:5}" <"$3" >"$4"
}

ends_well() { # STATUS
    case $1 in
    0) cmp "$folder/made" "$folder/whole" ;;
    9)
        head -n -1 "$folder/made" >"$folder/prefix"
        [ "$(tail -n 1 "$folder/made")" = 'signals: memory' ] && cmp -n "$(stat -c %s "$folder/prefix")" "$folder/prefix" "$folder/whole"
        ;;
    *) false ;;
    esac
}

check_run() { # INPUT WORDS..
    local calls call last status
    local -A ended=([0]=0 [9]=0)
    run_refused 0 0 "$1" "$folder/whole" "${@:2}"
    calls=$(od -An -t d8 "$folder/count" | tr -d ' ')
    [ "$calls" -gt 0 ] || { echo "$1: no allocation was counted"; exit 1; }
    for ((call = 1; call <= calls; call++)); do
        for last in "$call" "$calls"; do
            status=0
            run_refused "$call" "$last" "$1" "$folder/made" "${@:2}" || status=$?
            if ! ends_well "$status"; then
                echo "$1: calls $call to $last refused: status $status"
                cat "$folder/made"
                exit 1
            fi
            ended[$status]=$((ended[$status] + 1))
        done
    done
    echo "$1: $calls allocations, each refused alone and with all after it: status 0 ${ended[0]} times, 9 ${ended[9]} times"
}

check_run examples/tokens.txt fold https://idp.example https://rp.example MDEyMzQ1Njc4OWFiY2RlZjAxMjM0NTY3ODlhYmNkZWY
check_run examples/rs256.txt fold https://idp.example https://rp.example "$(python3 -B examples/public_key.py --word examples/provider.pem)"
check_run examples/first.txt replay
check_run examples/replay.txt replay
python3 -B tools/checks/check_stops.py script >"$folder/stops.txt"
check_run "$folder/stops.txt" replay
