#!/usr/bin/env bash
# Measures the built program on generated inputs, the program of measures, and `rt ci`. It prints rows of the table of BENCH.md.
# With the word `program` it leaves `rt ci` out.
here=$(cd "$(dirname "$0")/.." && pwd) || exit 1
work=$(mktemp -d) || exit 1
trap 'rm -rf "$work"' EXIT

cat >"$work/loop.ys" <<'SOURCE'
    irmovq $1, %rcx
    irmovq $0x1000, %rdx
loop:
    rmmovq %rcx, (%rdx)
    mrmovq (%rdx), %rbx
    addq %rcx, %rax
    jmp loop
SOURCE
awk 'BEGIN { for (i = 0; i < 65535; i++) printf "L%05d: nop #xx\n", i }' >"$work/labels.ys"
awk 'BEGIN { printf "0x000: "; for (i = 0; i < 524200; i++) printf "00"; printf "\n" }' >"$work/zeros.yo"
awk 'BEGIN { for (i = 0; i < 963; i++) print "bool set_cc = E_icode == IOPQ && !(m_stat in { SADR, SINS, SHLT });" }' >"$work/long.hcl"

# The seconds of the fastest of three calls of the program with these words.
fastest() {
    for _ in 1 2 3; do
        start=$EPOCHREALTIME
        "$here/y86" "$@" >"$work/out"
        echo "$start $EPOCHREALTIME"
    done | awk 'NR == 1 || $2 - $1 < best { best = $2 - $1 } END { printf "%.3f", best }'
}

"$here/y86" yas "$work/loop.ys" >"$work/loop.yo" || exit 1
echo "| what, on $(nproc) cores ($(sed -n 's/^model name[^:]*: //p' /proc/cpuinfo | head -1)) | figure |"
echo "|---|---|"
seconds=$(fastest yis "$work/loop.yo" --limit 20000000)
echo "| \`yis\`, 20,000,000 steps of a loop that stores, loads, adds and jumps | $seconds s, $(awk "BEGIN { printf \"%.1f\", 20 / $seconds }") million steps a second |"
echo "| \`yas\`, $(wc -c <"$work/labels.ys") bytes of source with 65,535 labels | $(fastest yas "$work/labels.ys" --mem 1048576) s |"
echo "| \`yis\`, $(wc -c <"$work/zeros.yo") bytes of object text loaded into 1,048,576 bytes of memory | $(fastest yis "$work/zeros.yo" --mem 1048576) s |"
echo "| \`hcl\`, $(wc -c <"$work/long.hcl") bytes of HCL read and printed | $(fastest hcl "$work/long.hcl") s |"
for machine in "ssim seq" "psim std"; do
    command=${machine% *} design=${machine#* }.hcl
    seconds=$(fastest "$command" "$here/examples/designs/$design" "$work/loop.yo" --limit 2000000)
    echo "| \`$command $design\`, 2,000,000 cycles of the same loop | $seconds s, $(awk "BEGIN { printf \"%.2f\", 2 / $seconds }") million cycles a second |"
done

echo "| \`big 100000 std.hcl\`: $("$here/y86" big 100000 "$here/examples/designs/std.hcl" | awk '{ print $4 " steps and " $6 " cycles" }'), on images of 1 MB | $(fastest big 100000 "$here/examples/designs/std.hcl") s |"

echo "| \`sample std.hcl 7 1000000\`, the whole call | $(fastest sample "$here/examples/designs/std.hcl" 7 1000000) s |"

# Prints a row of the table: $1 is a request to the program of measures, if the gate has built it. $2 is how many things the request does, with `answer` for
# the number that the program answers, and $3 the format of their number in a second. The time is that of the processor in the fastest of three calls, so
# that other work beside it matters less.
measure() {
    [ -x "$here/crates/bench/out/bench" ] || return
    seconds=$(for _ in 1 2 3; do
        TIMEFORMAT=%U
        { time echo "$1" | "$here/crates/bench/out/bench" >"$work/out"; } 2>&1
    done | sort -n | head -1)
    echo "| \`bench\`, $(cat "$work/out") | $seconds s${2:+, $(awk -v answer="$(sed 's/ .*//' "$work/out")" "BEGIN { printf \"$3\", $2 / $seconds }")} |"
}

measure "gates 20000" "20000 * 512 * answer / 1000000" "%.0f million gates a second, one of 512 valuations counted as 512"
measure "single 20000" "20000 * answer / 1000000" "%.0f million gates a second"
measure "ssim 2000000" 2 "%.2f million cycles a second by walking the terms"
measure "psim 2000000" 2 "%.2f million cycles a second by walking the terms"
measure "nodes adders 32"
measure "nodes queens 8"
measure "nodes words 18"
[ "$1" = program ] && exit 0
python3 "$here/bench/gate.py"
