# What the scripts here share; each sets `rounds` and reads this file from the repository's root.
runs=5
out=target/bench

# build CRATE NAME: proves and builds our program, runs it on its `args`, and builds NAME.rs for release. Our program is `$ours`.
build() {
    mkdir -p "$out"
    ours="crates/$1/out/$1"
    # shellcheck disable=SC2046
    (cd "crates/$1" && rt run -- $(sed 's,^[a-z],data/&,' args)) >"$out/check.log" 2>&1 || { cat "$out/check.log"; exit 1; }
    rustc -C opt-level=3 --edition 2021 "bench/$2.rs" -o "$out/$2"
}

# The median of `runs` numbers, a line each.
median() { sort -n | sed -n "$(((runs + 1) / 2))p"; }
