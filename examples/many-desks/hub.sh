#!/bin/sh
# Reads the stream of all desks in Redis from its beginning, and posts its messages to one record.
# It prints the replies, and runs until it is stopped. Started again, it goes on with the same record.
# Usage: hub.sh REDIS SETUP STORE, for example: hub.sh redis://127.0.0.1:6379 museum.csv museum.db
set -eu
redis=$1 setup=$2 store=$3

# prints the lines of the stream, and waits for more
follow() {
    last=0
    while :; do
        if got=$(timeout 5 redis-cli -u "$redis" -e --raw XREAD COUNT 500 BLOCK 1000 STREAMS pairsalder "$last"); then
            [ -n "$got" ] || continue
            # after the stream's name, an entry is three lines: its id, the word `line`, and the station's line
            printf '%s\n' "$got" | awk 'NR > 1 && NR % 3 == 1'
            last=$(printf '%s\n' "$got" | awk 'NR % 3 == 2 { id = $0 } END { print id }')
        else
            sleep 1
        fi
    done
}

follow | pairsalder replay --setup "$setup" --store "$store"
