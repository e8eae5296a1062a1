#!/usr/bin/env bash
# Bad and odd input: the program ends with the right status and says the right
# line, whatever it is given.
#
#     badinput.sh PROGRAM
#
# A line for each failed check, then the count. Exit status 1 on a failure.
set -eu

if [ $# -ne 1 ] || [ ! -x "$1" ]; then
    echo "usage: badinput.sh PROGRAM" >&2
    exit 1
fi
program=$(cd "$(dirname "$1")" && pwd)/$(basename "$1")
folder=$(mktemp -d)
trap 'rm -rf "$folder"' EXIT
cd "$folder"

checks=0
failed=0
tab=$'\t'

fail() {
    failed=$((failed + 1))
    printf 'failed: %s: %s\n' "$1" "$2"
}

# Runs the program with the words given; standard input is the file $input, or
# closed if that is `closed`; standard output goes to $output.
output=out
call() {
    status=0
    : > out
    : > err
    if [ "$input" = closed ]; then
        "$program" "$@" <&- > "$output" 2> err || status=$?
    else
        "$program" "$@" < "$input" > "$output" 2> err || status=$?
    fi
}

# check STATUS OUT ERR WORD ..: what must come. OUT is the whole of standard
# output (without its last line end) or `?` for anything but nothing at all.
# ERR is the whole of standard error, or `line` for one line of any text.
check() {
    local want_status=$1 want_out=$2 want_err=$3
    shift 3
    local name="$* < $input > $output"
    checks=$((checks + 1))
    call "$@"
    if [ "$status" -ne "$want_status" ]; then
        fail "$name" "status $status, not $want_status"
        return 0
    fi
    if [ "$want_out" = '?' ]; then
        [ -s out ] || { fail "$name" "nothing on standard output"; return 0; }
    elif [ "$want_out" = '' ]; then
        [ ! -s out ] || { fail "$name" "something on standard output"; return 0; }
    elif [ "$(cat out)" != "$want_out" ]; then
        fail "$name" "standard output is: $(head -c 200 out | tr -d '\0')"
        return 0
    fi
    if [ "$want_err" = line ]; then
        [ "$(wc -l < err)" -eq 1 ] || { fail "$name" "not one line on standard error"; return 0; }
        ! grep -q -i -e panicked -e backtrace err || fail "$name" "a panic"
    elif [ "$(cat err)" != "$want_err" ]; then
        fail "$name" "standard error is: $(head -c 200 err)"
    fi
}

# refused CODE WORD ..: `pages` and `plain` refuse on standard error, the others
# on standard output.
refused() {
    local line="REFUSED$tab$1"
    shift
    case $1 in
        pages | plain) check 2 '' "$line" "$@" ;;
        *) check 2 "$line" '' "$@" ;;
    esac
}

: > empty
printf 'A' > one
head -c 2000000 /dev/zero > zeros
head -c 1048576 /dev/zero > longest
head -c 1048577 /dev/zero > toolong
python3 - > random <<'PYTHON'
import random
import sys

random.seed(20240229)
sys.stdout.buffer.write(bytes(random.getrandbits(8) for _ in range(200_000)))
PYTHON
head -c 65536 random > reportlongest
head -c 65537 random > reporttoolong
printf '\033&f0s1S' > pushed
printf 'T 8 8 1 07 41\n' > cases
printf 'T 8 8 1 07 41\nT 8 8 1 07 4\n' > badcases

size="SIZE${tab}640${tab}800"
nothing="$size
END${tab}0${tab}4500${tab}0${tab}0"
too_long="$size
REFUSED${tab}12"
end_of_8_1="END${tab}0${tab}24${tab}0${tab}192${tab}0${tab}720${tab}1200${tab}0${tab}75${tab}0${tab}0${tab}0${tab}0${tab}0
SEED${tab}00
COUNT${tab}0${tab}0"
parked_8_1="JOB${tab}8${tab}1${tab}0${tab}24${tab}0${tab}192${tab}0${tab}720${tab}1200${tab}0${tab}75${tab}0${tab}0${tab}0${tab}0${tab}0
ROW${tab}00"
printf '%s\n' "$parked_8_1" > parked
tr '\n' '\r' < parked > returns
sed "s/^JOB${tab}8/JOB${tab}9/" parked > unsound
sed "s/^JOB${tab}8/JOB${tab}9999999999/" parked > wide
sed "1s/0\$/9999999999/" parked > deep
{ cat parked; cat zeros; } > behind

# Nothing to read: an empty input, and a closed one.
for input in empty closed; do
    check 0 "$nothing" '' report
    check 0 '' '' pages 8 1
    check 0 '' '' plain 8 1
    check 0 "$end_of_8_1" '' trace 8 1
    check 0 "$parked_8_1" '' park 8 1
    check 0 "$parked_8_1" '' park 8 1 -n 5
    refused 17 unpark
    check 0 '' '' cases -
done

# Parked texts: what reads, what is not of the form, what is not sound, and
# great numbers in a short text.
input=parked
check 0 '?' '' unpark
checks=$((checks + 1))
[ "$(tail -n 2 out)" = "depth${tab}0
ROW${tab}00" ] || fail "unpark of a parked text" "last lines"
for input in one random zeros /dev/zero returns wide deep behind; do
    refused 17 unpark
done
input=unsound
refused 18 unpark

# A sequence that is open, and one that is not yet or no longer.
input=pushed
refused 16 park 8 1 -n 1
for items in 0 2 3 00002 99999999999999999999999999999999999999999999; do
    check 0 "$parked_8_1" '' park 8 1 -n $items
done

# No file of cases, a folder, a bad line, and no case at all.
input=empty
check 1 '' line cases no-such-file
check 1 '' line cases .
check 1 '1 plain 1 af63fc4c860222ec' line cases badcases
check 0 '1 plain 1 af63fc4c860222ec' '' cases cases
check 1 '' line cases random
check 1 '' line cases zeros

# A folder as standard input cannot be read.
input=.
check 1 '' line report
check 1 '' line pages 8 1
check 1 '' line plain 8 1
check 1 '' line trace 8 1
check 1 '' line park 8 1
check 1 '' line unpark
check 1 '' line cases -

# Too long, by far, by one byte, and without end.
for input in zeros toolong /dev/zero; do
    check 0 "$too_long" '' report
    refused 12 pages 640 800
    refused 12 plain 640 800
    refused 12 trace 640 800
    refused 12 park 640 800
    refused 12 park 640 800 -n 0
done
input=/dev/zero
check 1 '' line cases -

# The longest allowed.
input=longest
check 0 "$too_long" '' report
check 0 '' '' pages 4800 6800
check 0 '' '' plain 4800 6800
check 0 '?' '' park 4800 6800
check 0 '?' '' trace 4800 6800
checks=$((checks + 1))
[ "$(tail -n 1 out)" = "COUNT${tab}1048576${tab}0" ] || fail "trace of the longest" "last line"

# Any bytes at all.
input=random
check 0 "$too_long" '' report
check 0 '?' '' pages 640 800
check 0 '?' '' plain 640 800
check 0 '?' '' trace 640 800
check 0 '?' '' trace 8 1
check 0 '?' '' trace 4800 6800
check 0 '?' '' park 640 800
check 1 '' line cases -
input=reportlongest
check 0 '?' '' report
checks=$((checks + 1))
[ "$(tail -n 1 out | cut -f 1)" = END ] || fail "report of 65,536 bytes" "last line"
input=reporttoolong
check 0 "$too_long" '' report

# Measures not allowed, before anything is said of the input: 10 before 12.
huge=99999999999999999999999999999999999999999999
for input in one toolong closed; do
    for word in pages plain trace park; do
        for width in 0 7 12 4808 18446744073709551615 18446744073709551624 $huge; do
            refused 10 $word $width 800
        done
        for height in 0 6801 18446744073709551616 $huge; do
            refused 10 $word 640 $height
        done
    done
done

# Words missing or wrong.
input=one
check 1 '' line
check 1 '' line ''
check 1 '' line reports
check 1 '' line --help
check 1 '' line report 640
check 1 '' line cases
check 1 '' line cases cases cases
check 1 '' line $'\xff\xfe'
check 1 '' line unpark 640
check 1 '' line unpark ''
for number in '' - +1 -1 1.5 0x4 1x ' 1' '1 ' one $'\xff' $'1\n'; do
    check 1 '' line park 640 800 -n "$number"
done
check 1 '' line park 640 800 -n
check 1 '' line park 640 800 -n 1 2
check 1 '' line park 640 800 -m 1
check 1 '' line park 640 800 n 1
check 1 '' line park -n 1 640 800
for word in pages plain trace park; do
    check 1 '' line $word
    check 1 '' line $word 640
    check 1 '' line $word 640 800 1
    for number in '' - +640 -640 6.4 0x40 640x ' 640' '640 ' six $'\xff' $'640\n'; do
        check 1 '' line $word "$number" 800
        check 1 '' line $word 640 "$number"
    done
done

# Output that cannot be written.
if [ -c /dev/full ]; then
    output=/dev/full
    input=one
    check 1 '' line report
    check 1 '' line pages 640 800
    check 1 '' line plain 640 800
    check 1 '' line trace 640 800
    check 1 '' line park 640 800
    check 1 '' line unpark
    check 1 '' line cases cases
    # A refusal that cannot be written either; the others use standard error.
    check 1 '' line trace 7 800
    check 1 '' line park 7 800
    input=parked
    check 1 '' line unpark
    input=toolong
    check 1 '' line report
    check 1 '' line trace 640 800
    refused 12 pages 640 800
    output=out
fi

echo "badinput: $checks checks, $failed failed"
[ "$failed" -eq 0 ]
