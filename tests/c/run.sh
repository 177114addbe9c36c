#!/bin/sh
# use: run.sh [NAME=VALUE].. -- COMMAND WORD..
#
# Runs the command and compares what came of it. Ends with 0 if all is as it should be, or with 1 and a line that says what isn't.
#
#   status=N        the command ends with N; else with 0
#   out=PATTERN     a line of standard output matches the pattern (grep -E); the same of err, for standard error
#   last=PATTERN    the last line of standard error matches the pattern
#   errors=CODES    rustc complains of these errors alone
#   says=LINE       standard output is this line
#   audit=PATTERN   standard output is a record, and the pattern matches the whole line that `$MC2 audit` prints of it.
#                   Where `sound` is wanted, `$MC2 merge` has to print a line for each entry
#   merge=PATTERN   the same of what `$MC2 merge` complains of
#   cpus=N events=N entries=N noroom=N each=N
#                   the record has so many; each: entries of each CPU; noroom=some: at least one
#   most=N          the record has 1 to N entries
#   times=N         as the first word: all of it is done so many times
set -u
case $1 in times=*)
    TIMES=${1#times=}
    shift
    while [ "$TIMES" -gt 0 ]; do
        "$0" "$@" || exit
        TIMES=$((TIMES - 1))
    done
    exit 0 ;;
esac
FOLDER=$(mktemp -d) || exit 1
trap 'rm -rf "$FOLDER"' EXIT
trap 'exit 1' HUP INT TERM
RECORD=$FOLDER/out STATUS=0 ALL=
while [ $# -gt 0 ] && [ "$1" != -- ]; do
    case $1 in status=*) STATUS=${1#status=} ;; esac
    ALL="$ALL$1
"
    shift
done
shift
fail() {
    printf '%s\n' "$*"
    head -c 2000 "$FOLDER/err"
    exit 1
}
"$@" >"$RECORD" 2>"$FOLDER/err"
ENDED=$?
[ $ENDED -eq 77 ] && exit 77
[ $ENDED -eq "$STATUS" ] || fail "ended with status $ENDED and not $STATUS: $*"

# The record's counts, as one names them above.
counts() {
    awk '/^cpu / { cpus++; if (cpus > 1 && each != $3) each = "different"; else each = $3 }
        /^log / { events += $3 } / \| / { entries++ } / \| noroom$/ { noroom++ }
        END { print "cpus=" cpus + 0; print "each=" each; print "events=" events + 0; print "entries=" entries + 0
              print "noroom=" noroom + 0; if (noroom) print "noroom=some" }' "$RECORD"
}

printf %s "$ALL" | while IFS= read -r WANTED; do
    VALUE=${WANTED#*=}
    case $WANTED in
    status=*) ;;
    out=*) grep -Eq -e "$VALUE" "$RECORD" || fail "no line of output matches $VALUE: $(head -c 500 "$RECORD")" ;;
    err=*) grep -Eq -e "$VALUE" "$FOLDER/err" || fail "no line of standard error matches $VALUE" ;;
    last=*) tail -n 1 "$FOLDER/err" | grep -Eq -e "$VALUE" || fail "the last line of standard error doesn't match $VALUE" ;;
    errors=*)
        ERRORS=$(sed -n 's/^error\[\(E[0-9]*\)\].*/\1/p' "$FOLDER/err" | sort -u)
        [ "$ERRORS" = "$VALUE" ] || fail "the errors are" $ERRORS "and not $VALUE" ;;
    says=*) [ "$(cat "$RECORD")" = "$VALUE" ] || fail "says $(head -c 500 "$RECORD") and not $VALUE" ;;
    audit=*)
        [ -f "$FOLDER/audit" ] || "$MC2" audit <"$RECORD" >"$FOLDER/audit" 2>&1
        grep -Exq -e "$VALUE" "$FOLDER/audit" || fail "audit says $(cat "$FOLDER/audit") and not $VALUE"
        if [ "$VALUE" = sound ]; then
            MERGED=$("$MC2" merge <"$RECORD" | wc -l)
            counts | grep -qx "entries=$MERGED" || fail "merge prints $MERGED lines, and the record has $(counts)"
        fi ;;
    merge=*)
        SAID=$("$MC2" merge <"$RECORD" 2>&1 >/dev/null)
        printf '%s\n' "$SAID" | grep -Exq -e "$VALUE" || fail "merge says $SAID and not $VALUE" ;;
    most=*)
        ENTRIES=$(grep -c ' | ' "$RECORD")
        [ "$ENTRIES" -ge 1 ] && [ "$ENTRIES" -le "$VALUE" ] || fail "$ENTRIES entries and not 1 to $VALUE" ;;
    *) counts | grep -qx "$WANTED" || fail "not $WANTED, but" $(counts) ;;
    esac
done
