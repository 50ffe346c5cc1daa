#!/bin/bash
# Runs the second program and another one on what `generate` writes, and says how many of the answers agree byte for byte and how often each
# refusal was given.
#
#   compare.sh COMMAND COUNT [FIRST_SEED]          inputs of the settling program
#   compare.sh mend COMMAND COUNT [FIRST_SEED]     recordings for the program that mends them
#   compare.sh checker COMMAND COUNT [FIRST_SEED]  inputs with the operator's shares, for the program that checks them
#   compare.sh calls COMMAND COUNT [FIRST_SEED]    scripts of library calls
#
# COMMAND reads an input on standard input and prints a sheet, or reads a recording and prints it mended, or reads an input with shares and prints
# the verdict, or reads a script and prints what the calls answer; it may have arguments and is given in quotes. The seeds run from FIRST_SEED (1) on. What the two differ on is kept in the folder named by DIFFERING (differing, in the folder
# the script is called in) with both answers beside it. A command that is ended by a signal, or runs for more than a minute, counts as differing.
# The exit status is 0 if all agree, 1 if any differ, 2 if nothing could be run.
set -u

# Both programs take the same word for what is compared: none for inputs.
words=()
case ${1:-} in
    mend | checker | calls)
        words=("$1")
        shift
        ;;
esac
if [ $# -lt 2 ] || [ $# -gt 3 ]; then
    echo "usage: compare.sh [mend|checker|calls] COMMAND COUNT [FIRST_SEED]" >&2
    exit 2
fi
command=$1
count=$2
first=${3:-1}
keep=${DIFFERING:-differing}

here=$(cd "$(dirname "${BASH_SOURCE[0]}")" && pwd) || exit 2
for package in "$here/../second" "$here/generate"; do
    (cd "$package" && cargo build --release --offline --quiet --jobs 1) || exit 2
done
target() {
    local folder
    folder=$(cd "$1" && cargo metadata --format-version 1 --no-deps --offline |
        sed 's/.*"target_directory":"\([^"]*\)".*/\1/')
    echo "$folder/release/$2"
}
second=$(target "$here/../second" second)
generate=$(target "$here/generate" generate)

work=$(mktemp -d) || exit 2
trap 'rm -rf "$work"' EXIT

# What a seed gives.
generated() { "$generate" "${words[@]}" "$1"; }
# What has to be listed of an answer, all of it or a part.
listed() { cat; }
# The number of the refusal that an answer ends in, 0 where nothing was refused.
refusals() { tail -n 1 "$1" | sed 's/^R\t.*\t//; t; s/.*/0/'; }
# What else is counted of an answer: nothing.
kinds() { :; }

# The examples, each with its listing beside it, and the refusals that can be given.
case ${words[*]:-settle} in
    settle)
        examples=("$here"/../examples/*.sheet)
        examples=("${examples[@]/%.sheet/.txt}")
        listing() { echo "${1%.txt}.sheet"; }
        accepted="settled to the end"
        numbers=({1..18})
        ;;
    mend)
        examples=("$here/../examples/archive.txt")
        listing() { echo "${1%.txt}.marks"; }
        listed() { grep '^X'; }
        accepted="mended to the end"
        numbers=({1..5} {13..15} {19..21})
        kinds() { sed -n 's/^X\t.*\t/mark /p; s/^S\t.*/samples/p' "$1"; }
        ;;
    checker)
        examples=("$here/../examples/operator.txt")
        listing() { echo "${1%.txt}.verdict"; }
        # the shares go by the sheet of the input, which the second program settles
        generated() { "$generate" checker "$1" | "$second" | "$generate" checker "$1" shares; }
        accepted="verdicts"
        numbers=({1..15} 17 18 22)
        kinds() { sed -n 's/^A\t.*/verdict A/p; s/^F\t.*\t/verdict F, /p' "$1"; }
        ;;
    calls)
        examples=("$here/../crates/calls/stdin")
        listing() { echo "${1%stdin}stdout"; }
        accepted="calls accepted"
        numbers=({1..18})
        # a script has one in the first line of each call's answer, which begins with the number of the script's line
        refusals() { sed -n 's/^[0-9]*\t\([0-9]*\).*/\1/p' "$1"; }
        ;;
esac

# Runs both programs on $work/input and tells whether they agree.
agree() {
    "$second" "${words[@]}" <"$work/input" >"$work/second" || return 1
    timeout 60 bash -c "$command" <"$work/input" >"$work/other" 2>"$work/messages"
    local status=$?
    [ "$status" -lt 124 ] && cmp -s "$work/second" "$work/other"
}

keep_input() {
    mkdir -p "$keep" || exit 2
    cp "$work/input" "$keep/$1.txt"
    cp "$work/second" "$keep/$1.second"
    cp "$work/other" "$keep/$1.other"
}

differ=0

# The examples come first: both have to print their listings.
for example in "${examples[@]}"; do
    cp "$example" "$work/input"
    if ! agree || ! listed <"$work/second" | cmp -s - "$(listing "$example")"; then
        echo "the answers to $(basename "$example") differ from its listing"
        differ=$((differ + 1))
        keep_input "$(basename "$example" .txt)"
    fi
done

for ((done = 1; done <= count; done++)); do
    seed=$((first + done - 1))
    generated "$seed" >"$work/input" || exit 2
    if ! agree; then
        differ=$((differ + 1))
        keep_input "$seed"
    fi
    refusals "$work/second" >>"$work/refusals"
    kinds "$work/second" | sort | uniq -c >>"$work/kinds"
    if ((done % 100 == 0)); then
        echo "$done of $count: $differ differ"
    fi
done

total=$((count + ${#examples[@]}))
echo "$((total - differ)) of $total agree: the examples and seeds $first to $((first + count - 1))"
declare -A reached
while read -r times number; do
    reached[$number]=$times
done < <(sort "$work/refusals" | uniq -c)
echo "$accepted: ${reached[0]:-0}"
for number in "${numbers[@]}"; do
    echo "refusal $number: ${reached[$number]:-0}"
done
awk '{ times = $1; $1 = ""; sum[$0] += times } END { for (kind in sum) print substr(kind, 2) ": " sum[kind] }' "$work/kinds" | sort
if ((differ > 0)); then
    echo "what differs is in $keep"
    exit 1
fi
