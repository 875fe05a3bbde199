#!/usr/bin/env bash
# Runs the lines of examples/runs.txt with the program that `rt ci` or ./prove built, or with the one that is
# named, and compares output, standard error and status with what stands beside the images. Two images are
# made here: hello in a file of 16 MiB, the longest that is read, and in one that is a byte longer. Then it lists
# each image, assembles the instructions of the listing, and lists their file: that gives the same ones.
set -u
top=$(cd "$(dirname "${BASH_SOURCE[0]}")/.." && pwd) || exit 1
program=${1:-$top/crates/oscar/out/oscar}
[ -x "$program" ] || { echo "examples: $program is not there: rt ci or ./prove builds it"; exit 1; }
work=$(mktemp -d) || exit 1
trap 'rm -rf "$work"' EXIT
cd "$top/examples" || exit 1
cp hello.elf "$work/longest.elf" && truncate -s 16777216 "$work/longest.elf" || exit 1
cp hello.elf "$work/too_long.elf" && truncate -s 16777217 "$work/too_long.elf" || exit 1

# compare RUN IMAGE STATUS WORD..: prints what differs
compare() {
    local run=$1 image=$2.elf wanted=$3 status
    shift 3
    [ -e "$image" ] || image=$work/$image
    timeout 60 "$program" "$@" < "$image" > "$work/out" 2> "$work/err"
    status=$?
    [ "$status" -eq "$wanted" ] || echo "status $status, and not $wanted"
    cmp "$work/out" "$run.stdout" 2>&1
    diff "$run.stderr" "$work/err" 2>&1
}

# count WHAT DIFFERENCE: one more that passed or failed
count() {
    if [ -z "$2" ]; then
        passed=$((passed + 1))
    else
        failed=$((failed + 1))
        printf '%s: %s\n' "$1" "$2"
    fi
}

passed=0
failed=0
while read -r run image status words; do
    [[ $run != "" && $run != "#" ]] || continue
    read -r -a words <<< "$words"
    differs=$(compare "$run" "$image" "$status" "${words[@]}")
    count "$run" "$differs"
done < runs.txt
# judge IMAGE VERDICT: prints what differs in mode object from the image's run without words and this verdict
judge() {
    local image=$1 wanted status
    wanted=$(sed -n "s|^$image $image \([0-9]*\)\$|\1|p" runs.txt)
    timeout 60 "$program" --mode object < "$image.elf" > "$work/out" 2> "$work/err"
    status=$?
    [ "$status" -eq "$wanted" ] || echo "status $status, and not $wanted"
    cmp "$work/out" "$image.stdout" 2>&1
    { cat "$image.stderr" && echo "object: $2"; } | diff - "$work/err" 2>&1
}

while read -r image verdict; do
    [[ $image != "" && $image != "#" ]] || continue
    count "$image, judged" "$(judge "$image" "$verdict")"
done < objects.txt

for image in *.elf bugs/*.elf; do
    grep -q " ${image%.elf} [0-9]" runs.txt && continue
    echo "runs.txt lacks $image"
    failed=$((failed + 1))
done
for file in *.stdout */*.stdout; do
    grep -q "^${file%.stdout} " runs.txt && continue
    echo "runs.txt lacks a run for $file"
    failed=$((failed + 1))
done

# instructions LISTING: the instructions of a listing without their addresses, which are a text
instructions() {
    sed -n '/ word 0x/!s/^0x[0-9a-f]* //p' "$1"
}

# round_trip IMAGE: prints how the text of an image's instructions and the listing of its file differ
round_trip() {
    "$program" --mode disasm --frames 4096 < "$1" > "$work/listing" 2>&1 || echo "not listed"
    instructions "$work/listing" > "$work/text"
    [ -s "$work/text" ] || echo "no instruction"
    "$program" --mode asm < "$work/text" > "$work/made" 2>&1 || cat "$work/made"
    "$program" --mode disasm --frames 4096 < "$work/made" > "$work/again" 2>&1 || echo "not listed again"
    instructions "$work/again" | diff "$work/text" -
}

# text_of_hello: prints how the file of hello's text runs otherwise than hello's image
text_of_hello() {
    "$program" --mode asm < hello.txt > "$work/made" || return
    "$program" < "$work/made" > "$work/out" 2> "$work/err" || echo "status $?"
    cmp "$work/out" hello.stdout 2>&1
    diff hello.stderr "$work/err" 2>&1
}

for image in *.elf bugs/*.elf; do
    count "text of $image" "$(round_trip "$image")"
done
count "hello.txt" "$(text_of_hello 2>&1)"

# answered STATUS LINE: prints how the text on standard input is answered otherwise in mode asm
answered() {
    local status
    timeout 60 "$program" --mode asm > "$work/made" 2> "$work/err"
    status=$?
    [ "$status" -eq "$1" ] || echo "status $status, and not $1"
    [ "$(cat "$work/err")" = "$2" ] || cat "$work/err"
}

# two_million_names: as many lines, each with a name of its own, in 16,000,000 bytes or fewer
two_million_names() {
    awk 'BEGIN { for (i = 0; i < 2000000; i++) printf "%c%x:\n", 97 + i % 26, int(i / 26) }'
}

# names_alone: prints how the file of a text of names alone differs from that of an empty text
names_alone() {
    "$program" --mode asm < /dev/null > "$work/empty" || return
    two_million_names | answered 0 ""
    cmp "$work/empty" "$work/made" 2>&1
}

count "16 MiB of one line" "$(head -c 16777216 /dev/zero | tr '\0' a | answered 72 "oscar: text: line 1 form")"
count "one byte more" "$(head -c 16777217 /dev/zero | tr '\0' a | answered 72 "oscar: text: too long")"
count "a NUL" "$(printf 'ecall\n\0\n' | answered 72 "oscar: text: line 2 form")"
count "a carriage return" "$(printf 'ecall\r\n' | answered 72 "oscar: text: line 1 form")"
count "a tab" "$(printf '\tecall\n' | answered 72 "oscar: text: line 1 form")"
count "two million names" "$(names_alone)"
count "a name again" "$({ two_million_names; echo a0:; } | answered 72 "oscar: text: line 2000001 bound")"
echo "examples: $passed passed, $failed failed"
[ "$failed" -eq 0 ]
