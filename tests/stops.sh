#!/bin/sh
# What stops a script: each case has to end with status 1 and the message below, and write no file.
# Usage: tests/stops.sh PROGRAM
set -u
program=$(cd "$(dirname "$1")" && pwd)/$(basename "$1")
place=$(mktemp -d) && cd "$place" || exit 1
trap 'rm -rf "$place"' EXIT
printf 'abcde' >ragged.image
cases=0
failed=0

# stops SCRIPT MESSAGE: the script, with \n between its lines, and what standard error has to say
stops() {
    cases=$((cases + 1))
    printf "$1" | "$program" >out 2>err
    status=$?
    if [ "$status" -ne 1 ] || [ "$(cat err)" != "triplog: $2" ]; then
        failed=$((failed + 1))
        printf 'stops: %s\n  expected: triplog: %s\n  status %s: %s\n' "$1" "$2" "$status" "$(cat err)"
    fi
}

stops 'apend a 1' "line 1: there is no call 'apend'"
stops '# a comment\n\npage a' "line 3: write it as: page NAME WORDS, or page NAME from FILE"
stops 'page a x' "line 1: 'x' is not a number"
stops 'page a 0x' "line 1: '0x' is not a number"
stops 'page a 18446744073709551616' "line 1: '18446744073709551616' is not a number"
stops 'page a 4\nappend a 4294967296' "line 2: '4294967296' is not a word of 32 bits"
stops 'read a 0' "line 1: no chip is named 'a'"
stops 'page a 4\npage a 4' "line 2: a chip is named 'a' already"
stops 'page a 4\npair b a a' "line 2: 'a' cannot be paired with itself"
stops 'page a 4\nappend a 1\ncut after 2 settle a' "line 3: that is more than the stores of the call, 1"
stops 'page a 4\nsave a one.image two.image' "line 2: files named: 2, memories of the chip: 1"
stops 'page a from ragged.image' "line 1: the size of 'ragged.image' is no multiple of four bytes"
stops 'page a 1\npage b 1\npage c 1\npage d 1\npage e 1\npair f a b\npair g c d\npair h f g\npair i h e' "line 9: a pair of pairs cannot be paired again"
stops 'record' "line 1: a body begins with add, close, latch, set or raw"
stops 'record vector 1' "line 1: a body begins with add, close, latch, set or raw"
stops 'record sub 1 from 8' "line 1: a body begins with add, close, latch, set or raw"
stops 'record add 700 8' "line 1: write it as: add AMOUNT to A sender S number N"
stops 'record add 700 to 8 sender 0 number 1 2' "line 1: write it as: add AMOUNT to A sender S number N"
stops 'record close 8 to 9 sender 1 number 1' "line 1: write it as: close A into B sender S number N"
stops 'record latch 8 into 10 if 9 over 500 sender 2 number 3' "line 1: write it as: latch A into C if B at least AMOUNT sender S number N"
stops 'record set' "line 1: write it as: set CELL VALUE [CELL VALUE].."
stops 'record set 8 5 9' "line 1: write it as: set CELL VALUE [CELL VALUE].."
stops 'record add all to 8 sender 0 number 1' "line 1: 'all' is not a number"
stops 'record raw 4294967296' "line 1: '4294967296' is not a word of 32 bits"
stops 'record add 700 to 8 sender 8 number 1' "line 1: the sender is above 7"
stops 'record add 700 to 8 sender 0 number 8388608' "line 1: the number is above 8388607"
stops 'record add 700 to 256 sender 0 number 1' "line 1: a cell is above 255"
stops 'record close 8 into 256 sender 0 number 1' "line 1: a cell is above 255"
stops 'record latch 8 into 256 if 9 at least 1 sender 0 number 1' "line 1: a cell is above 255"
stops 'record latch 8 into 10 if 256 at least 1 sender 0 number 1' "line 1: a cell is above 255"
stops 'record add 536870912 to 8 sender 0 number 1' "line 1: the amount is above 536870911"
stops 'record add 536870912 to 256 sender 8 number 8388608' "line 1: the sender is above 7"
stops 'record raw 1 vector' "line 1: write it as: vector PLACE [PLACE].., with up to eight places"
stops 'record raw 1 vector 1 2 3 4 5 6 7 8 9' "line 1: write it as: vector PLACE [PLACE].., with up to eight places"
stops 'record raw 1 vector 4294967296' "line 1: '4294967296' is not a word of 32 bits"
stops 'count a 4\nrecords a commands cells 16 chip 0' "line 2: write it as: records NAME KIND cells CELLS chip CHIP of CHIPS"
stops 'count a 4\nrecords a command cells 16 chip 0 of 1' "line 2: 'command' is no kind of work: values or commands"
stops 'count a 4\nrecords a commands cells 4294967296 chip 0 of 1' "line 2: '4294967296' is not a word of 32 bits"
stops 'count a 4\nrecords a commands cells 16 chip 2 of 2' "line 2: chip 2 is not one of 2 chips, counted from 0"
stops 'count a 4\nrecords a commands cells 16 chip 0 of 0' "line 2: a unit has 1 to 8 chips, not 0"
stops 'count a 4\nrecords a commands cells 16 chip 0 of 9' "line 2: a unit has 1 to 8 chips, not 9"
stops 'records' "line 1: write it as: records NAME KIND cells CELLS chip CHIP of CHIPS"
stops 'records a commands' "line 1: write it as: records NAME KIND cells CELLS chip CHIP of CHIPS"
stops 'records a commands cells 16 chip 0 of 1' "line 1: no chip is named 'a'"
stops 'work commands 16 add 700 to 8 sender 0 number 1' "line 1: write it as: work KIND cells CELLS BODY.."
stops 'work commands cells 16' "line 1: a body begins with add, close, latch, set or raw"
stops 'work commands cells 16 add 700 to 8 sender 0 number 1 vector 4' "line 1: write it as: add AMOUNT to A sender S number N"

# The system words these messages; only their beginning is ours.
printf 'count a from no.image' | "$program" >out 2>err
status=$?
cases=$((cases + 1))
case "$status $(cat err)" in
"1 triplog: line 1: 'no.image' cannot be read: "*) ;;
*) failed=$((failed + 1)); printf 'a missing file: status %s: %s\n' "$status" "$(cat err)" ;;
esac
printf 'page a 2\nsave a no/such.image' | "$program" >out 2>err
status=$?
cases=$((cases + 1))
case "$status $(cat err)" in
"1 triplog: line 2: 'no/such.image.part' cannot be written: "*) ;;
*) failed=$((failed + 1)); printf 'a folder that is missing: status %s: %s\n' "$status" "$(cat err)" ;;
esac
if [ "$(ls)" != "$(printf 'err\nout\nragged.image')" ]; then
    failed=$((failed + 1))
    printf 'files were written: %s\n' "$(ls)"
fi

printf 'stops: %s cases, %s failed\n' "$cases" "$failed"
[ "$failed" -eq 0 ]
