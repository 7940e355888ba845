#!/usr/bin/env bash
# The time of a Look, a Put and a Prove on the cache of statements, at 1, 32 and 256 entries with texts of 12,000 and 250,000 bytes, beside
# the same on the kit's `lru` alone, in one run; and the peak of the resident memory of a full cache, beside that of `lru` alone with the same
# texts. In between, a part of the cache without turns, at 1 and 32 entries. A call's URL, text and key are made before, and its reply is
# dropped in the time measured. Each time is the least of several rounds, in which the three take turns. Proofs and builds come first, so
# that it takes minutes.
# Words: the bytes of the texts of a row (4000000), and a folder to keep the program in: what an earlier run left there isn't built again.
set -euo pipefail
case ${1-} in -h | --help) sed -n '2,/^set /s/^# \{0,1\}//p' "$0" && exit 0 ;; esac
cd "$(dirname "$0")/.."
bytes=${1:-4000000}
rounds=21
place=$(mktemp -d)
trap 'rm -rf "$place"' EXIT
programs=${2:-$place/programs}
needed='fed_base base64url entity_id fed_json jws_form jwk_set slh_lanes slh_hash fors wots_xmss slh_dsa sealed turn_log statement_shelf'

# The program, and what it stands on.
lay() {
    local program=$place/shelf/crates/shelf_times
    mkdir -p "$program/src" "$program/specs" "$program/proofs/shared/make"
    for crate in $needed; do
        mkdir "$place/shelf/crates/$crate"
        cp -R "crates/$crate/src" "crates/$crate/specs" "crates/$crate/proofs" "$place/shelf/crates/$crate/"
        grep "^$crate[: ]" crates.txt
    done >"$place/shelf/crates.txt"
    echo "shelf_times may_wait=6: ${needed} atomic_table lru" >>"$place/shelf/crates.txt"
    cp HANDLES "$place/shelf/"
    cp crates/statement_shelf/src/address.rt "$program/src/"
    : >"$program/specs/Lib.antt"
    : >"$program/proofs/Lib.antt"
    cat >"$program/proofs/shared/make/Invariants.antt" <<'PROOF'
use Rattle.statement_shelf.specs.Passes.{IsPassOfAll}
use Rattle.shelf_times.proofs.shared.make.Given as goal

abbrev pub invariant-loop-call : goal.invariant-loop-call
invariant-loop-call g l = IsPassOfAll l.commons l.pass
PROOF
    cat >"$program/src/stop.rt" <<'PROGRAM'
// Why a row has no time.
use fed_base::Memory;
use std::alloc::{AllocError, AllocFailed};
use turn_log::Worn;

#[derive(Clone, Copy, Debug, PartialEq, Eq, Drop)]
pub enum Stop {
    Memory,
    Worn,
    Clock,
}

impl From<Memory> for Stop {
    fn from(_: Memory) -> Stop {
        Stop::Memory
    }
}

impl From<AllocError> for Stop {
    fn from(_: AllocError) -> Stop {
        Stop::Memory
    }
}

impl<T: Drop> From<AllocFailed<T>> for Stop {
    fn from(_: AllocFailed<T>) -> Stop {
        Stop::Memory
    }
}

impl From<Worn> for Stop {
    fn from(_: Worn) -> Stop {
        Stop::Worn
    }
}
PROGRAM
    cat >"$program/src/calls.rt" <<'PROGRAM'
// The calls that are timed.
use crate::stop::Stop;
use fed_base::{Alg, Duplicate, Memory, Plain, Steps, Text};
use sealed::{Sealed, Tested, seal_payload, test_key};
use slh_dsa::KeyPair;
use statement_shelf::ShelfCall;
use std::alloc::Global;

// The 48 seeds from 0 to 47.
const SEEDS: [u8; 48] = [
    0, 1, 2, 3, 4, 5, 6, 7, 8, 9, 10, 11, 12, 13, 14, 15, 16, 17, 18, 19, 20, 21, 22, 23, 24, 25,
    26, 27, 28, 29, 30, 31, 32, 33, 34, 35, 36, 37, 38, 39, 40, 41, 42, 43, 44, 45, 46, 47,
];

// A text with a payload of so many bytes, and the key under which it verifies.
pub fn sealed(alloc: Global, payload: u64) -> Result<Option<Sealed>, Memory> {
    let pair = KeyPair::from_seeds(Alg::Small, &SEEDS);
    let typ = Text::of(alloc, b"entity-statement+jwt")?;
    let mut claims = Text::new(alloc);
    for _ in 0..payload {
        claims.push(b'x')?;
    }
    let text = seal_payload(alloc, &pair, &typ, claims.as_slice())?;
    let Ok(compact) = jws_form::split(alloc, text.as_slice()) else {
        return Ok(None);
    };
    let mut steps = Steps {
        ledger: Plain::new(),
    };
    match test_key(alloc, &compact, &pair.public(), &mut steps)? {
        Tested::Yes(seal) => Ok(Some(seal)),
        Tested::No(_) => Ok(None),
    }
}

// The URL of the n-th entry. The sum of its bytes is n modulo `parts` where that is 8, and 0 modulo 8 where it is 1.
fn url(alloc: Global, n: u64, parts: u64) -> Result<Text, Memory> {
    let digits = format!(in alloc; "{n}")?;
    let mut url = Text::of(alloc, b"https://leaf-")?;
    url.append(digits.as_bytes())?;
    url.append(b".example/.well-known/openid-federation?")?;
    let mut sum = 0u64;
    for byte in url.as_slice() {
        sum = sum.wrapping_add(*byte as u64);
    }
    let part = if parts == 8 { n } else { 0 };
    let left = part.wrapping_sub(sum) % 8;
    url.push((left + 64) as u8)?;
    Ok(url)
}

// The n-th call.
pub fn call(alloc: Global, row: &Row, n: u64, kind: &str, seal: &Sealed) -> Result<ShelfCall, Memory> {
    let url = url(alloc, n, row.parts)?;
    Ok(match kind {
        "look" => ShelfCall::Look { url, moment: 9 },
        "prove" => ShelfCall::Prove {
            url,
            seal: seal.copy(alloc)?,
        },
        _ => ShelfCall::Put {
            url,
            text: seal.text().copy(alloc)?,
            until: 10,
        },
    })
}

// So many calls, on one entry after the other.
pub fn calls(alloc: Global, row: &Row, kind: &str, count: u64, seal: &Sealed) -> Result<Vec<ShelfCall>, Stop> {
    let mut calls = Vec::new(alloc);
    let mut n = 0u64;
    for _ in 0..count {
        calls.push(call(alloc, row, n, kind, seal)?)?;
        n = n.wrapping_add(1);
        if n >= row.entries {
            n = 0;
        }
    }
    Ok(calls)
}

// What a row asks: how many entries there are, in how many parts, and how many calls are made.
#[derive(Clone, Copy, Drop)]
pub struct Row {
    pub entries: u64,
    pub parts: u64,
    pub calls: u64,
}
PROGRAM
    cat >"$program/src/alone.rt" <<'PROGRAM'
// The calls on `lru` alone.
use crate::address::Address;
use crate::calls::{Row, call, calls};
use crate::stop::Stop;
use fed_base::{Duplicate, Text};
use lru::LruCache;
use sealed::Sealed;
use statement_shelf::ShelfCall;
use std::alloc::Global;
use std::num::NonZeroUsize;
use std::time::{Clock, Instant};

// What is kept of a URL.
#[derive(Drop)]
pub struct Kept {
    text: Text,
    keys: Vec<[u8; 32]>,
    until: u64,
}

// What a look-up gives.
#[derive(Drop)]
struct Copied {
    text: Text,
    keys: Vec<[u8; 32]>,
}

fn look(alloc: Global, cache: &mut LruCache<Address, Kept>, url: Text, moment: u64) -> Result<Option<Copied>, Stop> {
    let Some(kept) = cache.get(&Address::of(url)) else {
        return Ok(None);
    };
    if kept.until <= moment {
        return Ok(None);
    }
    let text = kept.text.copy(alloc)?;
    let keys = Vec::from_slice(alloc, kept.keys.as_slice())?;
    Ok(Some(Copied { text, keys }))
}

fn put(alloc: Global, cache: &mut LruCache<Address, Kept>, url: Text, text: Text, until: u64) -> Result<bool, Stop> {
    let keys = Vec::with_capacity(alloc, 4)?;
    cache.put(Address::of(url), Kept { text, keys, until })?;
    Ok(true)
}

fn prove(cache: &mut LruCache<Address, Kept>, url: Text, seal: Sealed) -> Result<bool, Stop> {
    let Some(kept) = cache.peek_mut(&Address::of(url)) else {
        return Ok(false);
    };
    if kept.text.as_slice() != seal.text().as_slice() {
        return Ok(false);
    }
    if !kept.keys.contains(&seal.public()) {
        kept.keys.push(seal.public())?;
    }
    Ok(true)
}

// A call, and whether it found what it looked for.
fn act(alloc: Global, cache: &mut LruCache<Address, Kept>, call: ShelfCall) -> Result<bool, Stop> {
    match call {
        ShelfCall::Look { url, moment } => match look(alloc, cache, url, moment)? {
            Some(copied) => Ok(copied.text.len() > 0),
            None => Ok(false),
        },
        ShelfCall::Put { url, text, until } => put(alloc, cache, url, text, until),
        ShelfCall::Prove { url, seal } => prove(cache, url, seal),
        ShelfCall::Purge { moment: _ } => Ok(false),
    }
}

fn make(alloc: Global, cache: &mut LruCache<Address, Kept>, calls: Vec<ShelfCall>) -> Result<u64, Stop> {
    let mut done = 0u64;
    for call in calls {
        if act(alloc, cache, call)? {
            done = done.saturating_add(1);
        }
    }
    Ok(done)
}

// How many calls did what they should, and the nanoseconds of all.
pub fn time<R: Clock>(rt: &R, alloc: Global, row: &Row, kind: &str, seal: &Sealed) -> Result<(u64, u128), Stop> {
    let Some(room) = NonZeroUsize::new(256) else {
        return Err(Stop::Memory);
    };
    let mut cache = LruCache::new(alloc, room)?;
    for n in 0..row.entries {
        act(alloc, &mut cache, call(alloc, row, n, "put", seal)?)?;
    }
    let list = calls(alloc, row, kind, row.calls, seal)?;
    let Ok(start) = Instant::now(rt) else {
        return Err(Stop::Clock);
    };
    let done = make(alloc, &mut cache, list)?;
    match start.elapsed(rt) {
        Ok(passed) => Ok((done, passed.as_nanos())),
        Err(_) => Err(Stop::Clock),
    }
}
PROGRAM
    cat >"$program/src/part.rt" <<'PROGRAM'
// The calls on a part of the cache, without turns.
use crate::calls::{Row, call, calls};
use crate::stop::Stop;
use sealed::Sealed;
use statement_shelf::{ShelfCall, ShelfPart, ShelfReply};
use std::alloc::Global;
use std::time::{Clock, Instant};
use turn_log::{Opening, Sequential};

// Whether a call did what it should.
pub fn is_done(reply: &ShelfReply) -> bool {
    match reply {
        ShelfReply::Hit(proven) => proven.text.len() > 0,
        ShelfReply::Done => true,
        _ => false,
    }
}

fn make(alloc: Global, part: &mut ShelfPart, calls: Vec<ShelfCall>) -> u64 {
    let mut done = 0u64;
    for call in calls {
        if is_done(&part.act(alloc, call)) {
            done = done.saturating_add(1);
        }
    }
    done
}

// How many calls did what they should, and the nanoseconds of all.
pub fn time<R: Clock>(rt: &R, alloc: Global, row: &Row, kind: &str, seal: &Sealed) -> Result<(u64, u128), Stop> {
    let mut part = ShelfPart::open(alloc)?;
    for n in 0..row.entries {
        let _reply = part.act(alloc, call(alloc, row, n, "put", seal)?);
    }
    let list = calls(alloc, row, kind, row.calls, seal)?;
    let Ok(start) = Instant::now(rt) else {
        return Err(Stop::Clock);
    };
    let done = make(alloc, &mut part, list);
    match start.elapsed(rt) {
        Ok(passed) => Ok((done, passed.as_nanos())),
        Err(_) => Err(Stop::Clock),
    }
}
PROGRAM
    cat >"$program/src/shared.rt" <<'PROGRAM'
// The calls on the cache that threads share.
ghost use Rattle.statement_shelf.specs.Passes.{IsPassOfAll};

use crate::calls::{Row, call, calls};
use crate::part::is_done;
use crate::stop::Stop;
use fed_base::Seq;
use sealed::Sealed;
use statement_shelf::{Commons, FedPass, ShelfCall};
use std::alloc::Global;
use std::sync::Wait;
use std::time::{Clock, Instant};

fn make<R: Wait>(rt: &R, alloc: Global, commons: &Commons, pass: &mut FedPass, calls: Vec<ShelfCall>) -> Result<u64, Stop>
    requires { IsPassOfAll commons.now pass.old }
    ensures { IsPassOfAll commons.now pass.new }
{
    let mut done = 0u64;
    for call in calls {
        if is_done(&commons.shelf(rt, alloc, pass, call)?) {
            done = done.saturating_add(1);
        }
    }
    Ok(done)
}

// Puts a text under each URL, one after the other, so that no more than one is there beside those that are kept.
fn fill<R: Wait>(rt: &R, alloc: Global, commons: &Commons, pass: &mut FedPass, row: &Row, seal: &Sealed) -> Result<(), Stop>
    requires { IsPassOfAll commons.now pass.old }
    ensures { IsPassOfAll commons.now pass.new }
{
    for n in 0..row.entries {
        commons.shelf(rt, alloc, pass, call(alloc, row, n, "put", seal)?)?;
    }
    Ok(())
}

// How many calls did what they should, and the nanoseconds of all.
pub fn time<R: Wait + Clock>(rt: &R, alloc: Global, row: &Row, kind: &str, seal: &Sealed) -> Result<(u64, u128), Stop> {
    let (commons, mut pass) = Commons::new(alloc, Seq::new(alloc))?;
    fill(rt, alloc, &commons, &mut pass, row, seal)?;
    let list = calls(alloc, row, kind, row.calls, seal)?;
    let Ok(start) = Instant::now(rt) else {
        return Err(Stop::Clock);
    };
    let done = make(rt, alloc, &commons, &mut pass, list)?;
    match start.elapsed(rt) {
        Ok(passed) => Ok((done, passed.as_nanos())),
        Err(_) => Err(Stop::Clock),
    }
}
PROGRAM
    mkdir -p "$program/proofs/shared/fill"
    cat >"$program/proofs/shared/fill/Invariants.antt" <<'PROOF'
use Rattle.statement_shelf.specs.Passes.{IsPassOfAll}
use Rattle.shelf_times.proofs.shared.fill.Given as goal

abbrev pub invariant-loop-n : goal.invariant-loop-n
invariant-loop-n g l = IsPassOfAll l.commons l.pass
PROOF
    cat >"$program/src/main.rt" <<'PROGRAM'
//! Times calls on the cache of statements. Each line of the input is `shared`, `part` or `alone`; `look`, `put` or `prove`; how many
//! entries there are; the bytes of a text's payload; and how many calls are made. The program writes the line, the bytes of a text, how
//! many calls did what they should, and the nanoseconds of all.
#![tactic(auto)]

mod address;
mod alone;
mod calls;
mod part;
mod shared;
mod stop;

use crate::calls::Row;
use crate::stop::Stop;
use sealed::Sealed;
use std::alloc::Global;
use std::io;
use std::sync::Wait;
use std::time::Clock;

// A word of a line.
fn at<'a>(line: &'a str, place: usize) -> &'a str {
    line.split(' ').nth(place).unwrap_or("")
}

// The number that a word spells, or 0.
fn number(word: &str) -> u64 {
    word.parse::<u64>().unwrap_or(0)
}

fn time<R: Wait + Clock>(rt: &R, alloc: Global, line: &str, seal: &Sealed) -> Result<(u64, u128), Stop> {
    let row = Row {
        entries: number(at(line, 2)),
        parts: if at(line, 0) == "part" { 1 } else { 8 },
        calls: number(at(line, 4)),
    };
    match at(line, 0) {
        "shared" => shared::time(rt, alloc, &row, at(line, 1), seal),
        "part" => part::time(rt, alloc, &row, at(line, 1), seal),
        _ => alone::time(rt, alloc, &row, at(line, 1), seal),
    }
}

fn main(rt: HostRuntime) -> io::Result<()> {
    let alloc = rt.alloc();
    let mut payload = 0;
    let mut last = None;
    for line in rt.lines(alloc) {
        let line = line?;
        let asked = number(at(line.as_str(), 3));
        if asked != payload {
            payload = asked;
            last = calls::sealed(alloc, asked).unwrap_or(None);
        }
        let Some(seal) = &last else {
            continue;
        };
        match time(&rt, alloc, line.as_str(), seal) {
            Ok((done, nanoseconds)) => println!(rt; "{line} {} {done} {nanoseconds}", seal.text().len())?,
            Err(_) => println!(rt; "{line} 0 0 0")?,
        }
    }
    Ok(())
}
PROGRAM
    git init -q "$place/shelf"
}

mkdir -p "$programs"
if [ ! -x "$programs/shelf_times" ]; then
    lay
    echo "building shelf_times" >&2
    (cd "$place/shelf/crates/shelf_times" && rt run </dev/null >"$place/build.log" 2>&1) || {
        tail -n 20 "$place/build.log" >&2
        exit 1
    }
    cp "$place/shelf/crates/shelf_times/out/shelf_times" "$programs/shelf_times"
fi
program=$programs/shelf_times

of_processor() { sed -n "s/^$1[[:space:]]*: //p" /proc/cpuinfo 2>/dev/null | head -n 1; }
echo "processor: $(of_processor 'model name'), family $(of_processor 'cpu family'), model $(of_processor model), $(nproc) of them; load $(cut -d ' ' -f 1-3 /proc/loadavg)"
echo "nanoseconds of a call, in the mean over calls whose texts have $bytes bytes together, 64 calls at least: the least of $rounds rounds"
# payloads with which a text has 12,000 and 250,000 bytes
small=1034
large=179534
for payload in $small $large; do
    calls=$((bytes / (payload * 4 / 3 + 10600)))
    if [ "$calls" -lt 64 ]; then calls=64; fi
    for _ in $(seq "$rounds"); do
        for kind in look put prove; do
            for entries in 1 32 256; do
                echo "shared $kind $entries $payload $calls"
                echo "alone $kind $entries $payload $calls"
                if [ "$entries" -le 32 ]; then echo "part $kind $entries $payload $calls"; fi
            done
        done
    done
done >"$place/lines"
"$program" <"$place/lines" >"$place/times"
awk '$7 != $5 { print "not as it should be: " $0; bad = 1 } END { exit bad }' "$place/times"
awk '
    { key = $2 " " $3 " " $6; t = $8 / $5; if (!(($1, key) in least) || t < least[$1, key]) least[$1, key] = t; if (!(key in seen)) { seen[key] = 1; keys[++n] = key } }
    END {
        printf "%-6s %8s %8s %12s %12s %12s %8s\n", "call", "entries", "bytes", "shared ns", "part ns", "alone ns", "ratio"
        for (i = 1; i <= n; i++) {
            split(keys[i], k, " ")
            r = least["shared", keys[i]] / least["alone", keys[i]]
            if (r > worst) worst = r
            printf "%-6s %8d %8d %12.0f %12s %12.0f %8.2f\n", k[1], k[2], k[3], least["shared", keys[i]], (("part", keys[i]) in least) ? sprintf("%.0f", least["part", keys[i]]) : "", least["alone", keys[i]], r
        }
        printf "aim: each call at most 2.00 times that on lru alone: at most %.2f: %s\n", worst, (worst <= 2 ? "met" : "not met")
    }' "$place/times"

# kibibytes FORM ENTRIES: the peak of the resident memory with so many entries of 250,000 bytes
kibibytes() {
    echo "$1 put $2 $large 0" >"$place/line"
    /usr/bin/time -f %M -o "$place/peak" "$program" <"$place/line" >/dev/null
    cat "$place/peak"
}
awk -v start="$(kibibytes shared 0)" -v full="$(kibibytes shared 256)" -v alone="$(kibibytes alone 256)" '
    BEGIN {
        texts = 256 * 250000 / 1024
        printf "peak of the resident memory: %d KiB with a full cache, %d KiB with an empty one, %d KiB with lru alone; the texts are %d KiB\n", full, start, alone, texts
        printf "aim: at most 1.10 times the texts: is %.2f: %s\n", full / texts, (full <= 1.1 * texts ? "met" : "not met")
    }'
