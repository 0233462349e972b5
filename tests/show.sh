#!/usr/bin/env bash
# The printing program on inputs of every kind: a line for each case, then a total. Exit status 1 where a case is wrong.
set -u
cd "$(dirname "$0")/.."
[ -x target/bin/show ] || tools/make.sh show || exit 1

total=0
wrong=0

# expect NAME LINE COMMAND..: what the command prints, through a pipe, makes the program print the line
expect() {
    local name=$1 line=$2 got
    shift 2
    got=$("$@" 2>/dev/null | timeout 20 target/bin/show; printf '%s' "${PIPESTATUS[1]}")
    total=$((total + 1))
    if [ "$got" = "$line"$'\n'0 ]; then
        echo "ok: $name: $line"
    else
        echo "wrong: $name: expected '$line', got '$got'"
        wrong=$((wrong + 1))
    fi
}

image() { tools/image.py "$@"; }
form() { image "$@" | head -c 101; }
first() { local n=$1; shift; image "$@" | head -c "$n"; }
after() { local n=$1; shift; image "$@"; head -c "$n" /dev/zero; }
endless() { image "$@"; exec cat /dev/zero; }
pieces() {
    image "$@" | python3 -c '
import sys, time
data = sys.stdin.buffer.read()
cuts = [0, 1, 7, 100, 101, 102, 103, 1000, 4196, len(data)]
for a, b in zip(cuts, cuts[1:]):
    sys.stdout.buffer.write(data[a:b]); sys.stdout.buffer.flush(); time.sleep(0.02)'
}

# The document's example, and where runs end.
expect "NOP, HALT" "stop 6 steps 1 pc 0002" image --hex "00 76"
expect "a thousand NOPs" "stop 0 steps 1000 pc 03E8" image
expect "break on halt" "stop 7 steps 0 pc 0000" image --set msr=0x1000 --hex "76"
expect "PC past memory" "stop 2 steps 0 pc 1000" image --pc 0x1000
expect "capital digits" "stop 6 steps 0 pc 0ABD" image --pc 0xabc --at 0xabc --hex "76"
expect "a violation" "stop 1 steps 0 pc 0000" image --set msr=0x4000 --set mmu=0x8000
expect "privileged" "stop 3 steps 0 pc 0000" image --set msr=0x4000 --hex "76"
expect "a system call" "stop 4 steps 0 pc 0000" image --hex "ED 71 34 12"
expect "extended" "stop 5 steps 0 pc 0000" image --hex "ED 84"
expect "a port" "stop 8 steps 0 pc 0000" image --hex "D3 01"
expect "no instruction" "stop 9 steps 0 pc 0000" image --hex "ED 00"
expect "16 frames" "stop 6 steps 0 pc 0000" image --frames 16 --pc 0xffff --at 0xffff --hex "76"
expect "the last frame of 16 is read" "stop 6 steps 1 pc F002" image --frames 16 --pc 0xf000 --at 0xf000 --hex "00 76"
expect "a byte of the tenth frame" "stop 6 steps 0 pc 9001" image --frames 10 --pc 0x9000 --at 0x9000 --hex "76"

# Input in pieces.
expect "in pieces" "stop 6 steps 1 pc 0002" pieces --hex "00 76"
expect "16 frames in pieces" "stop 6 steps 0 pc 8001" pieces --frames 16 --pc 0x8000 --at 0x8000 --hex "76"

# Refusal 3: shorter than a form.
expect "no input" "refused 3" true
expect "1 byte" "refused 3" first 1
expect "100 bytes" "refused 3" first 100
expect "100 bytes of a wrong version" "refused 3" first 100 --set version=9

# Refusal 4: the version.
for version in 0 2 3 4 255; do
    expect "version $version" "refused 4" image --set version=$version
done

# Refusal 2: each bit that may not be set.
for bit in 0x8000 0x2000 0x0800 0x0400 0x0080; do
    expect "MSR $bit" "refused 2" image --set msr=$bit
done
for bit in 0x2000 0x1000 0x0200 0x0100 0x0080 0x0040 0x0020; do
    expect "MMU control $bit" "refused 2" image --set mmu=$bit
done
expect "all bits of MSR that may be set" "stop 7 steps 0 pc 0000" image --set msr=0x137f --hex 76
expect "all bits of MMU control that may be set" "stop 1 steps 0 pc 0000" image --set mmu=0xcc1f

# Refusal 5: each padding bit.
for bit in 1 2 4 8 16 32 64; do
    expect "padding $bit" "refused 5" image --set padding=$bit
done

# Refusal 1: memory that is missing or extra.
expect "no memory" "refused 1" form
expect "a byte of memory" "refused 1" first 102
expect "a byte is missing" "refused 1" first 4196
expect "a byte is extra" "refused 1" after 1
expect "a frame is missing" "refused 1" first $((101 + 15 * 4096)) --frames 16
expect "a frame is extra" "refused 1" after 4096
expect "a byte is extra after 16 frames" "refused 1" after 1 --frames 16
expect "endless memory" "refused 1" endless
expect "endless memory after 16 frames" "refused 1" endless --frames 16
expect "endless zeros" "refused 4" cat /dev/zero

# Two refusals at once: the first in order.
expect "version before bits" "refused 4" image --set version=2 --set msr=0x8000
expect "version before padding" "refused 4" image --set version=2 --set padding=1
expect "bits before padding" "refused 2" image --set mmu=0x2000 --set padding=1
expect "version before memory" "refused 4" form --set version=2
expect "bits before memory" "refused 2" form --set msr=0x8000
expect "padding before memory" "refused 5" after 1 --set padding=64

echo "$total tests, $wrong wrong"
[ "$wrong" -eq 0 ]
