#!/usr/bin/env bash
# Each example prints the text beside it, which was worked out by hand. That the tokens are those that the signing script
# makes, and that the model prints the same, is checked by tools/generate.py.
set -eu -o pipefail
cd "$(dirname "$0")/../.."

# The program that SIGNALS_PROGRAM names, or the proved one where it is built, or else the same sources without proofs.
program=${SIGNALS_PROGRAM:-crates/signals/out/signals}
[ -x "$program" ] || program=$(python3 -B tools/crates/unproved.py signals)

check_example() { # EXAMPLE WORDS..
    "$program" "${@:2}" <"examples/$1.txt" | cmp - "examples/$1.out.txt"
}

check_same() { # SAID WANTED
    [ "$1" = "$2" ] || { echo "examples: $1 where $2 should stand" >&2 && exit 1; }
}

check_example tokens fold https://idp.example https://rp.example MDEyMzQ1Njc4OWFiY2RlZjAxMjM0NTY3ODlhYmNkZWY
for script in replay streams first; do
    check_example "$script" replay
done

# The provider's key of the settings as a word of fold; openssl tells the same key of its PEM, where there is one.
settings=examples/receiver_rs256.json
key=$(python3 -B -c 'import json, sys; print(json.dumps(json.load(open(sys.argv[1]))["issuers"][0]["keys"][0]))' "$settings")
check_example rs256 fold https://idp.example https://rp.example "$(python3 -B examples/public_key.py --word /dev/stdin <<<"$key")"
if command -v openssl >/dev/null; then
    check_same "$(python3 -B examples/public_key.py examples/provider.pem 2026-11)" "$key"
else
    echo 'examples: there is no openssl here to read examples/provider.pem'
fi

# These settings are read to their end: they lack nothing but a peer to fetch from.
room=$(mktemp -d)
trap 'rm -r "$room"' EXIT
"$program" init rx "$room/rx" 6ba7b811-9dad-11d1-80b4-00c04fd430c8
check_same "$("$program" fetch "$settings" "$room/rx" 1)" 'signals: settings poll'

# Settings are read whole before a store is looked for, as `./signals settings` uses. None is made.
for words in 'courier examples/transmitter.json none' 'fetch examples/receiver.json none 1' "receive $settings none 1"; do
    # shellcheck disable=SC2086
    check_same "$("$program" ${words/none/"$room/none"} </dev/null)" 'signals: no store'
done
check_same "$(find "$room" -name 'none*')" ''
echo 'examples: each prints what stands beside it'
