#!/bin/sh
# use: random_notes.sh NOTE
#
# Has `note random` print 60 records. It ends with 4 if the record has to be unsound, and $MC2 has to say the same.
for SEED in $(seq 0 59); do
    RECORD=$("$1" random "$SEED")
    STATUS=$?
    printf '%s\n' "$RECORD" | "$MC2" audit >/dev/null 2>&1
    AUDIT=$?
    printf '%s\n' "$RECORD" | "$MC2" merge >/dev/null 2>&1
    case $STATUS,$AUDIT,$? in
    0,0,0) ;;
    4,1,1) UNSOUND=$((UNSOUND + 1)) ;;
    *) echo "seed $SEED: note ends with $STATUS, audit with $AUDIT"; exit 1 ;;
    esac
done
echo "$UNSOUND of 60 unsound"
[ "$UNSOUND" -ge 20 ] && [ "$UNSOUND" -le 40 ]
