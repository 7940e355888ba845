#!/usr/bin/env bash
# The time of a call by `turn_log::Kept::act`, beside that of the same call under a std::sync::Mutex, in one run: one caller alone, and 2, 4
# and 8 at once. The call adds to a counter. Each time is the least of several rounds, in which the two take turns. Proofs and builds come
# first, so that it takes minutes.
# Words: the number of calls of each thread (200000), and a folder to keep the program in: what an earlier run left there isn't built again.
set -euo pipefail
case ${1-} in -h | --help) sed -n '2,/^set /s/^# \{0,1\}//p' "$0" && exit 0 ;; esac
cd "$(dirname "$0")/.."
calls=${1:-200000}
rounds=7
most=4.00
place=$(mktemp -d)
trap 'rm -rf "$place"' EXIT
programs=${2:-$place/programs}

# The program: that of `rows_turn`, whose callers here write nothing down, with a main of its own.
lay() {
    mkdir -p "$place/turns/crates"
    for crate in fed_base turn_log rows_turn; do
        mkdir "$place/turns/crates/$crate"
        cp -R "crates/$crate/src" "crates/$crate/specs" "crates/$crate/proofs" "$place/turns/crates/$crate/"
    done
    cp HANDLES "$place/turns/"
    # the rows of nine objects aren't timed
    (cd "$place/turns/crates/rows_turn" && rm -r src/counter.rt src/nine.rt specs/Counts.antt proofs/nine && sed -i '/pub mod Counts/d' specs/Lib.antt)
    sed -i 's/told.enter(call, reply)?;/let _reply = reply;/' "$place/turns/crates/rows_turn/src/worker.rt"
    cat >"$place/turns/crates/rows_turn/src/main.rt" <<'PROGRAM'
//! Times calls by threads. Each line of the input is `turn` or `mutex`, how many threads, and how many calls each makes; the program writes the
//! line and the nanoseconds of a call, in the mean.
#![tactic(auto)]

mod tally;
mod team;
mod worker;

ghost use Rattle.turn_log.specs.Objects.{IsOf};
ghost use Rattle.rows_turn.specs.Tallies.{TallyStep};

use crate::tally::{Call, Tally};
use crate::team::{open_eight, open_four, open_two, run_eight, run_four, run_two};
use crate::worker::{Job, open_one, work};
use std::alloc::Global;
use std::io;
use std::sync::{Mutex, Wait};
use std::thread::{Threads, join_mut};
use std::time::Instant;
use turn_log::{Kept, Pass, Sequential};

/// The calls of so many threads, by turns.
fn by_turns<R: Threads + Wait + Sync>(
    rt: &R,
    alloc: Global,
    kept: &Kept<Tally>,
    pass: &mut Pass<Tally>,
    threads: &str,
    job: Job,
)
    requires { IsOf TallyStep kept.now pass.old }
{
    match threads {
        "1" => {
            let mut worker = open_one(rt, alloc, kept, pass);
            work(rt, alloc, kept, job, 1, &mut worker);
        }
        "2" => {
            let mut team = open_two(rt, alloc, kept, pass);
            run_two(rt, alloc, kept, job, 1, &mut team);
        }
        "4" => {
            let mut team = open_four(rt, alloc, kept, pass);
            run_four(rt, alloc, kept, job, 1, &mut team);
        }
        _ => {
            let mut team = open_eight(rt, alloc, kept, pass);
            run_eight(rt, alloc, kept, job, 1, &mut team);
        }
    }
}

/// The same calls under a lock.
fn locked_one<R: Wait>(rt: &R, alloc: Global, tally: &Mutex<Tally>, calls: u64) {
    for _ in 0..calls {
        let mut guard = tally.lock(rt);
        let _reply = guard.act(alloc, Call::Add(1));
    }
}

fn locked_two<R: Threads + Wait + Sync>(rt: &R, alloc: Global, tally: &Mutex<Tally>, calls: u64) {
    join_mut(
        rt,
        &mut || locked_one(rt, alloc, tally, calls),
        &mut || locked_one(rt, alloc, tally, calls),
    );
}

fn locked_four<R: Threads + Wait + Sync>(rt: &R, alloc: Global, tally: &Mutex<Tally>, calls: u64) {
    join_mut(
        rt,
        &mut || locked_two(rt, alloc, tally, calls),
        &mut || locked_two(rt, alloc, tally, calls),
    );
}

fn locked<R: Threads + Wait + Sync>(
    rt: &R,
    alloc: Global,
    tally: &Mutex<Tally>,
    threads: &str,
    calls: u64,
) {
    match threads {
        "1" => locked_one(rt, alloc, tally, calls),
        "2" => locked_two(rt, alloc, tally, calls),
        "4" => locked_four(rt, alloc, tally, calls),
        _ => {
            join_mut(
                rt,
                &mut || locked_four(rt, alloc, tally, calls),
                &mut || locked_four(rt, alloc, tally, calls),
            );
        }
    }
}

fn blank(alloc: Global) -> Tally {
    Tally {
        sum: 0,
        values: Vec::new(alloc),
    }
}

fn main(rt: HostRuntime) -> io::Result<()> {
    let alloc = rt.alloc();
    for line in rt.lines(alloc) {
        let line = line?;
        let Some((word, rest)) = line.as_str().split_once(' ') else {
            continue;
        };
        let Some((threads, calls)) = rest.split_once(' ') else {
            continue;
        };
        let calls = calls.parse::<u64>().unwrap_or(0);
        let Ok((kept, mut pass)) = Kept::new(alloc, blank(alloc)) else {
            continue;
        };
        let mutex = Mutex::new(blank(alloc));
        let job = Job {
            keeps: false,
            wants: false,
            calls,
        };
        let start = Instant::now(&rt)?;
        if word == "turn" {
            by_turns(&rt, alloc, &kept, &mut pass, threads, job);
        } else {
            locked(&rt, alloc, &mutex, threads, calls);
        }
        let nanoseconds = start.elapsed(&rt)?.as_nanos();
        println!(rt; "{line} {nanoseconds}")?;
    }
    Ok(())
}
PROGRAM
    cat >"$place/turns/crates.txt" <<'LIST'
fed_base:
turn_log: fed_base atomic_table
rows_turn: fed_base turn_log atomic_table
LIST
    git init -q "$place/turns"
}

mkdir -p "$programs"
if [ ! -x "$programs/turn_times" ]; then
    lay
    echo "building turn_times" >&2
    (cd "$place/turns/crates/rows_turn" && rt run </dev/null >"$place/build.log" 2>&1) || {
        tail -n 5 "$place/build.log" >&2
        exit 1
    }
    cp "$place/turns/crates/rows_turn/out/rows_turn" "$programs/turn_times"
fi

of_processor() { sed -n "s/^$1[[:space:]]*: //p" /proc/cpuinfo 2>/dev/null | head -n 1; }
echo "processor: $(of_processor 'model name'), family $(of_processor 'cpu family'), model $(of_processor model), $(nproc) of them; load $(cut -d ' ' -f 1-3 /proc/loadavg)"
echo "nanoseconds of a call, in the mean over $calls calls of each thread: the least of $rounds rounds"
for _ in $(seq "$rounds"); do
    for threads in 1 2 4 8; do
        echo "turn $threads $calls"
        echo "mutex $threads $calls"
    done
done >"$place/lines"
"$programs/turn_times" <"$place/lines" >"$place/times"
awk -v most="$most" '
    { key = $1 " " $2; t = $4 / $2 / $3; if (!(key in least) || t < least[key]) least[key] = t }
    END {
        printf "%-8s %10s %10s %8s\n", "threads", "turn ns", "mutex ns", "ratio"
        for (n = 1; n <= 8; n *= 2) printf "%-8d %10.1f %10.1f %8.2f\n", n, least["turn " n], least["mutex " n], least["turn " n] / least["mutex " n]
        r = least["turn 1"] / least["mutex 1"]
        printf "aim: one caller alone, at most %.2f of a mutex: is %.2f: %s\n", most, r, (r <= most ? "met" : "not met")
    }' "$place/times"
