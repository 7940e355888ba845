#!/usr/bin/env bash
# The time of a call of `union`, `intersect` and `includes_each` of `fed_json` on two lists of 250, 1,000, 4,000 and 16,000 texts, beside
# that of reading both lists from their JSON texts, in one run. The lists of a union have no value in common, those of the others are alike.
# For each: the time of a call; that of the three together for a value, as a ratio to that of the shortest lists; and the greatest of the
# three as a ratio to reading. At the end the same for 2,000 texts of one hash. Each time is the least user time of three rounds. Proofs
# and builds come first, so that it takes minutes.
# Words: a folder to keep the program in; what an earlier run left there isn't built again.
set -euo pipefail
case ${1-} in -h | --help) sed -n '2,/^set /s/^# \{0,1\}//p' "$0" && exit 0 ;; esac
cd "$(dirname "$0")/.."
rounds=3
calls=200
place=$(mktemp -d)
trap 'rm -rf "$place"' EXIT
programs=${1:-$place/programs}

# The program, and what it stands on.
lay() {
    local program=$place/lists/crates/list_times
    mkdir -p "$program/src" "$program/specs" "$program/proofs"
    for crate in fed_base fed_json; do
        mkdir "$place/lists/crates/$crate"
        cp -R "crates/$crate/src" "crates/$crate/specs" "crates/$crate/proofs" "$place/lists/crates/$crate/"
        grep "^$crate[: ]" crates.txt
    done >"$place/lists/crates.txt"
    echo 'list_times: fed_base fed_json' >>"$place/lists/crates.txt"
    cp HANDLES "$place/lists/"
    git init -q "$place/lists"
    : >"$program/specs/Lib.antt"
    : >"$program/proofs/Lib.antt"
    cat >"$program/src/main.rt" <<'PROGRAM'
//! Makes calls on two lists. The input is three lines: the call, and the lists as JSON texts. The program makes the call 200 times and
//! writes how often it had an answer.
#![tactic(auto)]

use fed_base::Seq;
use fed_json::{Json, includes_each, intersect, read_tree, union};
use std::alloc::Global;
use std::io;

/// Whether the call had an answer.
fn call(alloc: Global, kind: &str, a: &Seq<Json>, b: &Seq<Json>) -> bool {
    match kind {
        "union" => match union(alloc, a, b) {
            Ok(list) => {
                drop(list);
                true
            }
            Err(_) => false,
        },
        "intersect" => match intersect(alloc, a, b) {
            Ok(list) => {
                drop(list);
                true
            }
            Err(_) => false,
        },
        _ => match includes_each(alloc, a, b) {
            Ok(all) => all,
            Err(_) => false,
        },
    }
}

/// Whether the text was read.
fn read(alloc: Global, text: &str) -> bool {
    match read_tree(alloc, text.as_bytes()) {
        Ok(tree) => {
            drop(tree);
            true
        }
        Err(_) => false,
    }
}

fn calls(alloc: Global, kind: &str, upper: &str, lower: &str) -> u64 {
    let mut done = 0u64;
    if let Ok(a) = read_tree(alloc, upper.as_bytes()) {
        if let Ok(b) = read_tree(alloc, lower.as_bytes()) {
            if let (Json::List(x), Json::List(y)) = (&a, &b) {
                for _ in 0..200u64 {
                    let told = if kind == "read" {
                        read(alloc, upper) && read(alloc, lower)
                    } else {
                        call(alloc, kind, x, y)
                    };
                    if told {
                        done = done.saturating_add(1);
                    }
                }
            }
            drop(b);
        }
        drop(a);
    }
    done
}

fn main(rt: HostRuntime) -> io::Result<()> {
    let alloc = rt.alloc();
    let mut lines = rt.lines(alloc);
    let Some(kind) = lines.next() else {
        return Ok(());
    };
    let kind = kind?;
    let Some(upper) = lines.next() else {
        return Ok(());
    };
    let upper = upper?;
    let Some(lower) = lines.next() else {
        return Ok(());
    };
    let lower = lower?;
    println!(rt; "{}", calls(alloc, kind.as_str(), upper.as_str(), lower.as_str()))?;
    Ok(())
}
PROGRAM
}

# texts FROM COUNT: a list of so many texts
texts() { printf '[%s]' "$(seq -f '"https://scope.example/value/%.0f"' -s , "$1" "$(($1 + $2 - 1))")"; }

# alike: a list of 2,000 texts of one hash, each made of two parts that have one
alike() {
    python3 -c '
parts = "s6hTFpRH", "PffKBr8P"
print("[" + ",".join("\"" + "".join(parts[number >> bit & 1] for bit in range(11)) + "\"" for number in range(2000)) + "]")'
}

# seconds KIND: the least user time of the calls
seconds() {
    local TIMEFORMAT=%U lower=same
    [ "$1" = union ] && lower=other
    { echo "$1" && cat "$place/one" "$place/$lower"; } >"$place/row"
    [ "$("$programs/list_times" <"$place/row")" = "$calls" ] || { echo "$1: not all calls had an answer" >&2 && exit 1; }
    for _ in $(seq "$rounds"); do { time "$programs/list_times" <"$place/row" >/dev/null; } 2>&1; done | sort -g | head -n 1
}

# measured NAME COUNT: the line of the lists that lie in the files one, same and other
measured() { echo "$1 $2 $(seconds read) $(seconds union) $(seconds intersect) $(seconds includes)"; }

all() {
    local count
    for count in 250 1000 4000 16000; do
        texts 1 "$count" | tee "$place/same" >"$place/one"
        texts "$((count + 1))" "$count" >"$place/other"
        echo | tee -a "$place/one" "$place/same" >>"$place/other"
        measured texts "$count"
    done
    alike | tee "$place/one" "$place/same" >"$place/other"
    measured one-hash 2000
}

# shown: the lines as a table
shown() {
    awk -v calls="$calls" '
    { print_line($1, $2, $3, $4, $5, $6) }
    function print_line(name, count, read, a, b, c,    each, most) {
        each = (a + b + c) / count
        if (NR == 1) {
            first = each
            printf "%-9s %7s %11s %11s %12s %13s %6s %10s\n", "lists of", "values", "read ms", "union ms", "intersect ms", "includes ms", "ratio", "most/read"
        }
        most = a > b ? a : b
        printf "%-9s %7d %11.3f %11.3f %12.3f %13.3f %6.2f %10.2f\n", name, count, read / calls * 1000, a / calls * 1000, b / calls * 1000, c / calls * 1000, each / first, most / read
    }'
}

if ! [ -x "$programs/list_times" ]; then
    lay
    (cd "$place/lists/crates/list_times" && rt fmt >/dev/null && rt run </dev/null >"$place/log" 2>&1) || {
        tail -n 20 "$place/log" >&2
        exit 1
    }
    mkdir -p "$programs"
    cp "$place/lists/crates/list_times/out/list_times" "$programs/"
fi
echo "load $(cut -d ' ' -f 1-3 /proc/loadavg)"
all | shown
