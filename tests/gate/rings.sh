#!/usr/bin/env bash
# What the built program does with a ring's file on a disk: twenty commands that change one file at once, locks that a killed change left, links,
# files that others can read, and in which order it calls the system. It prints what differs and fails where anything does.
# shellcheck source=tests/lib/rows.sh
source "$(dirname "$0")/../lib/rows.sh"
at_once=20

# holds WORDS..: the test of these words is met
holds() {
    if test "$@"; then
        as_it_should
    else
        differs "not so: $*"
    fi
}

# says WORD: one of the last command's sentences on standard error has the word, and there is nothing but sentences
says() { holds "$(grep -c "$1" "$place/err")/$(grep -vc '^fed: ' "$place/err")" = 1/0; }

# seeds NUMBER: the seeds of the key of that number
seeds() { printf '%02x' "$1"; head -c 94 /dev/zero | tr '\0' '0'; }

# add_key NUMBER RING: adds that key, and gives the status
add_key() {
    local status=0
    seeds "$1" | "$fed" rotate --ring "$2" --act add --at 1 --exp 2 >"$place/out-$1" 2>"$place/err" || status=$?
    echo "$status"
}


# of twenty that make one file at once, one does, and the others find its file or end with 6
ring=$place/r
for n in $(seq "$at_once"); do
    (
        status=0
        seeds "$n" | "$fed" keygen --ring "$ring" --at 1 --exp 2 >"$place/out-$n" 2>"$place/err-$n" || status=$?
        echo "$status" >"$place/status-$n"
    ) &
done
wait
won=0
for n in $(seq "$at_once"); do
    case $(cat "$place/status-$n") in
    0)
        won=$((won + 1))
        holds "$(grep -c "$(seeds "$n")" "$ring")" = 1
        ;;
    1) holds "$(cat "$place/out-$n")" = "refused Exists" ;;
    6) holds ! -s "$place/out-$n" -a -s "$place/err-$n" ;;
    *) holds "$n" = "a status that a command at once may have" ;;
    esac
done
holds "$won" = 1
holds "$(stat -c %a "$ring")" = 600
holds "$(ls "$place" | grep -c '^r')" = 1

# of twenty that add a key each, those that answer 0 find their keys in the file, and no other key is there
for n in $(seq 101 $((100 + at_once))); do
    (add_key "$n" "$ring" >"$place/status-$n") &
done
wait
added=0
for n in $(seq 101 $((100 + at_once))); do
    case $(cat "$place/status-$n") in
    0)
        added=$((added + 1))
        holds "$(grep -c "$(seeds "$n")" "$ring")" = 1
        ;;
    1) holds "$(cat "$place/out-$n")" = "refused Order" ;;
    6) holds ! -s "$place/out-$n" ;;
    *) holds "$n" = "a status that a command at once may have" ;;
    esac
done
holds "$added" -ge 1
holds "$(grep -o '"seeds"' "$ring" | wc -l)" = $((added + 1))
holds "$(ls "$place" | grep -c '^r')" = 1

# stopped_at_lock: starts changes of copies of the ring, and stops the first that is met while it has the lock: of the file $held, by process $stopped
stopped_at_lock() {
    local n
    seeds 201 >"$place/seeds"
    for n in $(seq 100); do
        held=$place/held-$n
        cp -p "$ring" "$held"
        "$fed" rotate --ring "$held" --act add --at 1 --exp 2 <"$place/seeds" >"$place/out" 2>"$place/err" &
        stopped=$!
        while kill -0 "$stopped" 2>/dev/null && [ ! -s "$held.lock" ]; do :; done
        kill -STOP "$stopped" 2>/dev/null || true
        sleep 0.1
        [ ! -s "$held.lock" ] || return 0
        kill -KILL "$stopped" 2>/dev/null || true
        { wait "$stopped" || true; } 2>/dev/null
    done
    return 1
}

# while a change has the lock another ends with 6, and names its process; where it was killed the next one takes the lock over, and says so
if stopped_at_lock; then
    kept=$(cat "$held")
    holds "$(cat "$held.lock")" = "$stopped"
    holds "$(add_key 202 "$held")" = 6
    says "process $stopped is changing the file and has $held.lock"
    holds "$(cat "$held")" = "$kept"
    kill -KILL "$stopped"
    { wait "$stopped" || true; } 2>/dev/null
    holds "$(cat "$held.lock")" = "$stopped"
    holds "$(add_key 202 "$held")" = 0
    says "$held.lock was left by process $stopped"
    holds "$(grep -c "$(seeds 202)" "$held")" = 1
    holds ! -e "$held.lock"
    holds "$(add_key 203 "$held")" = 0
    holds "$(grep -c "$held.lock" "$place/err")" = 0
else
    differs "no change was met while it had its lock"
fi

# a lock that names nobody, with a process that has it and without one
kept=$(cat "$ring")
if command -v flock >/dev/null; then
    exec 9>"$ring.lock"
    flock -n 9
    holds "$(add_key 204 "$ring")" = 6
    says "another process is changing the file and has $ring.lock"
    holds "$(cat "$ring")" = "$kept"
    exec 9>&-
else
    touch "$ring.lock"
fi
holds "$(add_key 204 "$ring")" = 0
says "$ring.lock was there, and no process has it"
holds ! -e "$ring.lock"

# what is no lock stays, and keeps each change from being made
kept=$(cat "$ring")
echo "of somebody else" >"$place/other"
ln -s other "$ring.lock"
holds "$(add_key 205 "$ring")" = 6
says "remove $ring.lock"
holds -L "$ring.lock"
rm "$ring.lock"
mkdir "$ring.lock"
holds "$(add_key 205 "$ring")" = 6
says "remove $ring.lock"
rmdir "$ring.lock"
holds "$(cat "$place/other")" = "of somebody else"
holds "$(cat "$ring")" = "$kept"

# a link is read, and isn't replaced; one that leads nowhere is refused
ln -s r "$place/link"
holds "$(add_key 206 "$place/link")" = 6
says "is a link"
holds -L "$place/link"
holds "$(cat "$ring")" = "$kept"
ln -s nowhere "$place/lost"
status=0
seeds 207 | "$fed" keygen --ring "$place/lost" --at 1 --exp 2 >"$place/out" 2>"$place/err" || status=$?
holds "$status" = 6
says "is a link"
holds -L "$place/lost" -a ! -e "$place/nowhere"

# a file that others can read is told beside an answer that is given, and not beside one that isn't
chmod 644 "$ring"
status=0
"$fed" public --ring "$ring" >"$place/out" 2>"$place/err" || status=$?
holds "$status" = 0
says "chmod 600"
status=0
"$fed" rotate --ring "$ring" --act retire --kid x </dev/null >"$place/out" 2>"$place/err" || status=$?
holds "$status $(cat "$place/out")" = "1 refused Unknown"
holds "$(grep -c "chmod" "$place/err")" = 0

# traced NUMBER WORDS..: changes the ring keys/r, with the seeds of that number, and compares what the system was called for from the lock on
traced() {
    local number=$1 status=0 order
    shift
    seeds "$number" | strace -f -y -o "$place/calls" -e trace=openat,flock,write,fsync,rename,unlink "$fed" "$@" --ring "$place/keys/r" >"$place/out" 2>"$place/err" || status=$?
    holds "$status" = 0
    order=$(sed -nE "
        s#^[0-9]+ +##
        s#^openat\([^\"]*\"$place/(keys[^\"]*)\".*#open \1#p
        s#^(flock|write|fsync)\([0-9]+<$place/(keys[^>]*)>.* = [0-9]+#\1 \2#p
        s#^rename\(\"$place/(keys[^\"]*)\", \"$place/(keys[^\"]*)\"\) += 0#rename \1 \2#p
        s#^unlink\(\"$place/(keys[^\"]*)\"\) += 0#unlink \1#p
        s#^write\([0-9]+<$place/out>.* = [1-9][0-9]*#answer#p
    " "$place/calls" | sed -n '/lock/,$p' | uniq | tr '\n' ';')
    holds "$order" = "open keys/r.lock;flock keys/r.lock;write keys/r.lock;open keys/r;open keys;open keys/r.new-a;write keys/r.new-a;fsync keys/r.new-a;rename keys/r.new-a keys/r;fsync keys;unlink keys/r.lock;answer;"
}

# a change is on the disk before its status is told: the new file before it is renamed, and the folder behind that
if strace -f -y -o "$place/calls" -e trace=openat true 2>/dev/null; then
    mkdir "$place/keys"
    traced 208 keygen --at 1 --exp 2
    traced 209 rotate --act add --at 1 --exp 2
else
    echo "$test_name: the order of the calls isn't tried, since strace can't be used here" >&2
fi

told
