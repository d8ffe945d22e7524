#!/bin/sh
# Publishes the lines of a station's file over MQTT, until the broker has confirmed all of them (QoS 1).
# Usage: mqtt_send.sh TOPIC FILE, for example: mqtt_send.sh mqtt://127.0.0.1:1883/pairsalder packing.jsonl
set -eu
topic=$1 file=$2
# repeated from the start of the file: a message that arrives twice is refused as Double
until timeout 120 mosquitto_pub -L "$topic" -q 1 -l < "$file"; do
    sleep 1
done
