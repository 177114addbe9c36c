#!/bin/sh
# use: digest.sh FILE FUNCTION|- DIGEST
#
# Compares the digest of the function in the file, or of the whole file, with the one that is known. Comments, contracts and
# blanks don't count.
TEXT=$(cat "$1")
if [ "$2" != - ]; then
    TEXT=$(awk -v start="^ *(pub |pub\\(crate\\) )?fn $2[^a-z_0-9]" '
        !within && $0 ~ start { within = 1; match($0, /^ */); end = sprintf("%" RLENGTH "s}", "") }
        within { print } within && $0 == end { exit }' "$1")
fi
CODE=$(echo "$TEXT" | sed -E -e 's|//.*||' -e 's/^ *(requires|ensures|prove!|ghost)\b.*//' | tr -d '[:space:]')
NOW=$(printf %s "$CODE" | sha256sum | cut -c1-16)
[ "$NOW" = "$3" ] || { echo "$2 of $1 isn't what the model was written from: its digest is $NOW"; exit 1; }
