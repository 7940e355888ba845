#!/bin/sh
# newkey.sh RING: makes a key from the system's random bytes that ends in a year, in the ring file RING, which nobody else may read, and writes
# its public part, a JSON Web Key. Nothing is done where RING is there. FED is the program; without it it is the one of this repository, or
# that on the PATH.
set -eu
if [ "$#" != 1 ]; then
    echo "usage: newkey.sh RING" >&2
    exit 2
fi
fed=${FED:-$(dirname "$0")/../fed}
[ -x "$fed" ] && [ ! -d "$fed" ] || fed=fed
now=$(date +%s)
umask 077
head -c 48 /dev/urandom | od -An -v -tx1 | tr -d ' \n' | "$fed" keygen --ring "$1" --at "$now" --exp $((now + 31536000))
