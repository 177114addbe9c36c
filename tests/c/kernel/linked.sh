#!/bin/sh
# Checks what a kernel links. Prints what it found; or prints what is wrong, and ends with 1.
#
#   linked.sh asks FILE NAME..    the library or object has no undefined symbols but these
#   linked.sh sections FILE       it has code, and no thread-local storage, constructors or destructors
#   linked.sh code FILE           no instruction uses an SSE register, or a fixed address below the stack pointer. With an index
#                                 register the address may be above it, as where the end of an array on the stack is compared
#   linked.sh size FILE MOST      the file has at most MOST bytes
#   linked.sh page FIGURES PAGE   the page has each figure of the header, with commas
set -u
COMMAND=$1 FILE=$2
shift 2

fail() {
    echo "$FILE: $*"
    exit 1
}

case $COMMAND in
asks)
    DEFINED=$(nm --defined-only "$FILE" | awk 'NF > 2 { print $3 }')
    ASKED=$(nm --undefined-only "$FILE" | awk 'NF == 2 { print $2 }' | sort -u) || fail "nm ended with an error"
    MORE=$(echo "$ASKED" | grep -vxF -e "$DEFINED" | grep -vxF -e "$(printf '%s\n' "$@")")
    [ -z "$MORE" ] || fail "it asks for" $MORE
    echo "asks for" $ASKED ;;
sections)
    NAMES=$(readelf --section-headers --wide "$FILE" | sed -n 's/^ *\[ *[0-9]*\] \([^ ]*\).*/\1/p')
    WRONG=$(echo "$NAMES" | grep -E '^\.(tdata|tbss|preinit_array|init|fini|ctors|dtors)' | sort -u)
    [ -z "$WRONG" ] || fail "it has" $WRONG
    echo "$NAMES" | grep -q '^\.text' || fail "it has no code"
    echo "no storage of threads and no constructors" ;;
code)
    CODE=$(objdump -d --no-show-raw-insn "$FILE")
    WRONG=$(echo "$CODE" | grep -E -m 1 '%[xyz]mm|-0x[0-9a-f]+\(%rsp\)')
    [ -z "$WRONG" ] || fail "$WRONG"
    LINES=$(echo "$CODE" | wc -l)
    [ "$LINES" -gt 1000 ] || fail "it has only $LINES lines of code"
    echo "$LINES lines of code" ;;
size)
    BYTES=$(wc -c <"$FILE")
    [ "$BYTES" -le "$1" ] || fail "$BYTES bytes, and at most $1"
    echo "$BYTES bytes" ;;
page)
    FIGURES=$(grep -o '= [0-9]*' "$FILE" | sed -e 's/= //' -e ':a' -e 's/\([0-9]\)\([0-9]\{3\}\)\($\|,\)/\1,\2\3/' -e ta)
    [ "$(echo "$FIGURES" | wc -l)" -ge 15 ] || fail "it has only these figures:" $FIGURES
    for FIGURE in $FIGURES; do
        grep -Eq "(^|[^0-9,])$FIGURE(\$|[^0-9,]|,(\$|[^0-9]))" "$1" || fail "$1 doesn't have $FIGURE"
    done ;;
esac
