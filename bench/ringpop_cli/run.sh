#!/usr/bin/env bash
# Folds the same change lines by the proved program, plain Rust by std alone and by serde_json, and plain Python, and tells for each the
# lines in a second, the best of seven runs. All have to print the same. Then the command `owner` over 4,096 servers of weight 1, for one
# owner and for all, and of weight 8: milliseconds, the best of seven.
# usage: bench/ringpop_cli/run.sh [LINES [ADDRESSES]]     100,000 lines of 1,000 addresses, if not given
# Needs rustc and python3, and the program that `rt run` left; PROGRAM names another, as build/ringpop.
source "$(dirname "$0")/../lib.sh"
program=$(realpath -m "${PROGRAM:-$root/crates/ringpop_cli/out/ringpop_cli}")
lines=${1:-100000}
[ -x "$program" ] || { echo "$program: no program: run make first, or name one by PROGRAM" >&2; exit 1; }
python3 "$here/make_lines.py" "$lines" "${2:-1000}" > "$work/lines"
rustc --edition 2021 -O -A dead_code -o "$work/fold" "$here/fold.rs"
programs=("$program" "$work/fold" "$here/fold.py")
if has "cargo with serde_json and sha2" cargo_build "$here/rust"; then programs+=("$work/rust/target/release/fold_lines"); fi
"$program" < "$work/lines" > "$work/wanted"
for other in "${programs[@]:1}"; do "$other" < "$work/lines" | cmp - "$work/wanted"; done
for weight in 1 8; do python3 "$here/make_lines.py" servers 4096 "$weight" > "$work/weight$weight"; done
python3 - "$lines" "$work/lines" "${programs[@]}" <<'PYTHON'
import subprocess, sys, time
lines, file, programs = int(sys.argv[1]), sys.argv[2], sys.argv[3:]
best = {program: float("inf") for program in programs}
for _ in range(7):
    for program in programs:
        with open(file, "rb") as given:
            start = time.perf_counter()
            subprocess.run([program], stdin=given, stdout=subprocess.DEVNULL, check=True)
            best[program] = min(best[program], time.perf_counter() - start)
for program, name in zip(programs, ["ringpop", "plain Rust", "plain Python", "plain Rust by serde_json"]):
    print(f"{name}: {best[program] * 1000:.0f} ms, {lines / best[program]:,.0f} lines a second")
PYTHON
python3 - "$program" "$work" <<'PYTHON'
import subprocess, sys, time
program, folder = sys.argv[1:]
rows = [("1", []), ("1", ["--n", "4096"]), ("8", [])]
best = [float("inf")] * len(rows)
for _ in range(7):
    for at, (weight, words) in enumerate(rows):
        with open(f"{folder}/weight{weight}", "rb") as given:
            start = time.perf_counter()
            subprocess.run([program, "owner", *words, "some key"], stdin=given, stdout=subprocess.DEVNULL, check=True)
            best[at] = min(best[at], time.perf_counter() - start)
for (weight, words), took in zip(rows, best):
    print(f"owner {' '.join([*words, ''])}over 4,096 servers of weight {weight}: {took * 1000:.0f} ms")
PYTHON
