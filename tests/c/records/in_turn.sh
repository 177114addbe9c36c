#!/bin/sh
# use: in_turn.sh COMMAND WORD..
#
# Runs a command that prints a record. The merged order has the events of the object `threads` in the order of its log.
FOLDER=$(mktemp -d) || exit 1
trap 'rm -rf "$FOLDER"' EXIT
"$@" >"$FOLDER/record" && "$MC2" merge <"$FOLDER/record" >"$FOLDER/merged" || exit 1
awk '/^log / { on = $2 == "threads"; next } /^cpu / { on = 0 } on' "$FOLDER/record" >"$FOLDER/log"
sed -n 's/^\([0-9]*\) threads /\1 /p' "$FOLDER/merged" | diff - "$FOLDER/log" && [ -s "$FOLDER/log" ]
