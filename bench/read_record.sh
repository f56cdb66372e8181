#!/bin/sh
# How fast `read_record` is: the time that it takes to read a record of 65,535 bytes, which is the longest, against that of the same
# reader in safe Rust (read_record.rs), built for release. Both do the same rounds in turn, and must write the same line. The last
# line is the ratio of the medians, ours / Rust; the aim is at most 2.
set -eu
cd "$(dirname "$0")/.."
rounds=2000
. bench/common.sh
build bench_read read_record

# One field to a line, as a format of printf: the 16 names, 1 to 16 bytes long, then letters chosen at random, always the same, until
# the record is full. A letter that would leave 1 to 3 bytes, too few for another, is passed over.
fields() {
    awk -v what="$1" 'BEGIN {
        n = split("v in out pass visit ticket barrier gate-one pass-read pass_taken visit-start barrier-free barrier.freed " \
            "ticket-printed ticket-returned barrier-released", name, " ")
        if (what == "names") for (i = 1; i <= n; i++) printf "\\020\\000\\%03o%s\n", length(name[i]), name[i]
        seed = 1
        for (left = 65535; what == "record" && left > 0; ) {
            seed = seed * 16807 % 2147483647
            i = seed % n + 1
            tag = int(seed / n) % 3 + 1
            rest = left - 3 - length(name[i])
            if (rest < 0 || (rest > 0 && rest < 4)) continue
            printf "\\%03o\\000\\%03o%s\n", tag, length(name[i]), name[i]
            left = rest
        }
    }'
}

# The lines of octal numbers hold no `%`, and are formats for that reason: `%b` reads octal numbers in another way.
bytes() {
    # shellcheck disable=SC2059
    while read -r line; do printf "$line"; done
}
fields names | bytes >"$out/names"
fields record | bytes >"$out/record"

: >"$out/ours.ns"
: >"$out/rust.ns"
for _ in $(seq "$runs"); do
    "$ours" "$out/names" "$out/record" "$rounds" >"$out/ours.line" 2>>"$out/ours.ns"
    "$out/read_record" "$out/names" "$out/record" "$rounds" >"$out/rust.line" 2>>"$out/rust.ns"
    cmp "$out/ours.line" "$out/rust.line"
done

echo "record: $(wc -c <"$out/record") bytes, $(cat "$out/ours.line"), $rounds rounds, median of $runs runs"
awk -v ours="$(median <"$out/ours.ns")" -v rust="$(median <"$out/rust.ns")" -v rounds="$rounds" 'BEGIN {
    printf "ours: %.1f microseconds a record\n", ours / rounds / 1000
    printf "Rust: %.1f microseconds a record\n", rust / rounds / 1000
    printf "ours / Rust: %.2f\n", ours / rust
}'
