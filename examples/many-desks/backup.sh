#!/bin/sh
# Backs up a record: checks and copies it to FOLDER, which must not exist yet, and gives that folder to restic.
# RESTIC_REPOSITORY and RESTIC_PASSWORD_FILE name the repository; `restic init` creates it once.
# Usage: backup.sh SETUP STORE FOLDER, for example: backup.sh museum.csv museum.db "backup-$(date +%F)"
# To restore: restic restore latest --target restored
#             mkdir old; mv museum.db* old; find restored -name museum.db -exec cp {} museum.db ';'
set -eu
setup=$1 store=$2 folder=$3
mkdir "$folder"
# fails if a running command has the store
if ! pairsalder copy --setup "$setup" --store "$store" --to "$folder/museum.db"; then
    rm -r "$folder"
    exit 1
fi
cp "$setup" "$folder/museum.csv"
restic backup --tag pairsalder "$folder"
