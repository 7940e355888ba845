# Rows that are compared, and how many came out as they should; each script of rows reads this first. It runs at the top of the repository, with
# a folder of its own, and the program is built.
set -euo pipefail
test_name=$(basename "$0" .sh)
cd "$(dirname "${BASH_SOURCE[0]}")/../.."
fed=$PWD/fed
place=$(mktemp -d)
trap 'rm -rf "$place"' EXIT
passed=0
failed=0
"$fed" --version >/dev/null

# as_it_should: a row came out so
as_it_should() { passed=$((passed + 1)); }

# differs WORDS..: it didn't, which these words tell
differs() {
    failed=$((failed + 1))
    echo "$test_name: $*" >&2
}

# told: says how many rows came out, and fails where one didn't
told() {
    echo "$test_name: $passed passed, $failed failed"
    [ "$failed" -eq 0 ]
}
