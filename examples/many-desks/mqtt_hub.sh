#!/bin/sh
# Receives the stations' lines over MQTT, keeps them in a journal, and posts the journal's messages to one record.
# CLIENT is the name under which the broker keeps messages while this script is not running: never change it, and use
# it once. The script prints the replies, and runs until it is stopped.
# Usage: mqtt_hub.sh TOPIC CLIENT JOURNAL SETUP STORE, for example:
#   mqtt_hub.sh mqtt://127.0.0.1:1883/pairsalder hub-1 journal.jsonl museum.csv museum.db
set -eu
topic=$1 client=$2 journal=$3 setup=$4 store=$5
touch "$journal"
# a line that was cut when the machine stopped must not run into the next one
[ -z "$(tail -c 1 "$journal")" ] || echo >> "$journal"
mosquitto_sub -L "$topic" -q 1 -c -i "$client" >> "$journal" &
receiver=$!
trap 'kill "$receiver" 2> /dev/null || :; wait' EXIT
trap 'exit 1' INT TERM
# Held messages are not in the store, so the hub reads the journal from its first line; it ends with its receiver. It runs
# in the background, because the shell would put off TERM until a command in the foreground ends.
tail --pid="$receiver" -n +1 -f "$journal" | pairsalder replay --setup "$setup" --store "$store" &
wait $!
