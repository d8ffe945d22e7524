#!/bin/sh
# Appends the lines of a file, or of standard input, to the stream of all desks in Redis.
# Usage: send.sh REDIS [FILE], for example: send.sh redis://127.0.0.1:6379 store.jsonl
set -eu
redis=$1
[ "$#" -lt 2 ] || exec < "$2"
while IFS= read -r line || [ -n "$line" ]; do
    # repeated until the broker confirms it: a message that arrives twice is refused as Double
    until timeout 5 redis-cli -u "$redis" -e XADD pairsalder '*' line "$line" < /dev/null > /dev/null; do
        sleep 1
    done
done
