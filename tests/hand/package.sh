#!/usr/bin/env bash
# A Debian package of the built program, made, installed below a folder of its own and removed again: what is there, that it runs, and that nothing
# of it stays. It wants root and dpkg, and says so where it has them not. It prints what differs and fails where anything does.
set -euo pipefail
cd "$(dirname "$0")/../.."
if [ "$(id -u)" != 0 ] || ! command -v dpkg >/dev/null || ! unshare -m true 2>/dev/null; then
    echo "package: not tried, since root, dpkg or a view of the files of its own is missing"
    exit 0
fi
place=$(mktemp -d)
trap 'rm -rf "$place"' EXIT
passed=0 failed=0
tell() {
    if [ "$2" = "$3" ]; then
        passed=$((passed + 1))
    else
        failed=$((failed + 1))
        echo "$1: $2, not $3" >&2
    fi
}
packaging/deb "$place" >/dev/null
package=$(ls "$place"/fed_*_amd64.deb)
tell "the architecture" "$(dpkg-deb -f "$package" Architecture)" amd64
tell "the version" "fed $(dpkg-deb -f "$package" Version)" "$(./fed --version | head -n 1)"
# installed in a view of the files of its own, so that the machine's own stay as they are
unshare -m bash -s "$package" "$place" <<'END' >"$place/said" 2>&1 || true
set -e
mkdir -p "$2/upper" "$2/work" "$2/merged"
mount -t tmpfs tmpfs "$2/upper"
mkdir "$2/upper/u" "$2/upper/w"
mount -t overlay overlay -o "lowerdir=/,upperdir=$2/upper/u,workdir=$2/upper/w" "$2/merged"
cp "$1" "$2/merged/tmp/fed.deb"
chroot "$2/merged" sh -c '
    dpkg --force-depends -i /tmp/fed.deb >/dev/null 2>&1 && echo installed
    /usr/bin/fed --version | head -n 1
    stat -c "%a %U" /var/lib/fed
    ls /lib/systemd/system/fed-*
    grep -hc "^ExecStart.*=/usr/bin/fed " /lib/systemd/system/fed-*.service
    dpkg -L fed | while read -r name; do [ -d "$name" ] || echo "$name"; done >/tmp/files
    dpkg -r fed >/dev/null 2>&1 && echo removed
    while read -r name; do [ ! -e "$name" ] || echo "$name stays"; done </tmp/files
    ls -d /var/lib/fed'
END
tell "installed, run and removed" "$(cat "$place/said")" "installed
$(./fed --version | head -n 1)
700 fed
/lib/systemd/system/fed-authority@.service
/lib/systemd/system/fed-authority@.socket
/lib/systemd/system/fed-resolver@.service
/lib/systemd/system/fed-resolver@.socket
2
2
removed
/var/lib/fed"
echo "package: $passed passed, $failed failed"
[ "$failed" = 0 ]
