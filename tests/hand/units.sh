#!/usr/bin/env bash
# The units of examples/ as they stand: that systemd reads each without a word, and rates what each service may do below 2 of 10, as
# `systemd-analyze security` does. It wants systemd 250 or later, and for the first root, and says so where it has them not. It prints what differs
# and fails where anything does.
set -euo pipefail
cd "$(dirname "$0")/../.."
if ! systemd-analyze security --help 2>/dev/null | grep -q -- --offline; then
    echo "units: not tried, since systemd is missing or older than 250"
    exit 0
fi
passed=0 failed=0
tell() {
    if [ "$2" = "$3" ]; then
        passed=$((passed + 1))
    else
        failed=$((failed + 1))
        echo "$1: $2, not $3" >&2
    fi
}
for unit in examples/*.service; do
    rated=$(systemd-analyze security --offline=yes --threshold=20 "$unit" 2>&1) && status=0 || status=$?
    tell "$unit is rated $(tail -n 1 <<<"$rated")" "$status" 0
done
if [ "$(id -u)" = 0 ] && unshare -m true 2>/dev/null; then
    # what the units start stands where they look for it, in a view of the files of its own
    said=$(unshare -m bash -s 2>&1 <<'END'
set -e
mount -t tmpfs tmpfs /usr/local/bin
mount -t tmpfs tmpfs /etc/systemd/system
for name in fed renew.sh; do
    printf '#!/bin/sh\n' >"/usr/local/bin/$name"
    chmod 755 "/usr/local/bin/$name"
done
cp examples/*.service examples/*.socket examples/*.timer /etc/systemd/system/
systemd-analyze verify --man=no fed-authority@8300.socket fed-authority@8300.service fed-resolver@8310.socket fed-resolver@8310.service \
    fed-renew.service fed-renew.timer
END
    ) || true
    tell "the units, as systemd reads them" "$said" ""
else
    echo "units: how systemd reads them: not tried, since no view of the files of its own is to be had"
fi
echo "units: $passed passed, $failed failed"
[ "$failed" = 0 ]
