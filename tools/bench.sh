#!/bin/sh
# Measures the digests on one cached file: our one stream and our root beside sha256sum and openssl, and all of describe.
# usage: tools/bench.sh [FILE]    (without FILE it makes one of 1 GiB in a temporary folder)
# Proves and builds the programs first.
set -eu
root=$(cd "$(dirname "$0")/.." && pwd)
hashes=$root/crates/hashes/out/hashes
describe=$root/crates/describe/out/describe
folder=$(mktemp -d)
trap 'rm -rf "$folder"' EXIT
file=${1:-$folder/file}
if [ $# -eq 0 ]; then
    head -c 1073741824 /dev/urandom > "$file"
fi
cat "$file" > /dev/null
(cd "$root/crates/hashes" && rt run -- stream /dev/null) > "$folder/log" 2>&1
(cd "$root/crates/describe" && rt run -- show data/notes.description) > "$folder/log" 2>&1

# The least of five runs, in milliseconds.
best() {
    least=
    for turn in 1 2 3 4 5; do
        start=$(date +%s%N)
        "$@" > "$folder/out"
        end=$(date +%s%N)
        spent=$(((end - start) / 1000000))
        if [ -z "$least" ] || [ "$spent" -lt "$least" ]; then
            least=$spent
        fi
    done
    echo "$least"
}

ratio() {
    awk -v a="$1" -v b="$2" 'BEGIN { printf "%.2f", a / b }'
}

sum=$(best sha256sum "$file")
ssl=$(best openssl dgst -sha256 "$file")
stream=$(best "$hashes" stream "$file")
tree=$(best "$hashes" root "$file")
all=$(best "$describe" "$file" "$folder/description" "$folder/records")
echo "sha256sum           $sum ms"
echo "openssl dgst        $ssl ms"
echo "hashes stream       $stream ms   $(ratio "$sum" "$stream") of sha256sum   $(ratio "$ssl" "$stream") of openssl"
echo "hashes root         $tree ms   $(ratio "$sum" "$tree") of sha256sum   $(ratio "$ssl" "$tree") of openssl"
echo "describe            $all ms   $(ratio "$sum" "$all") of sha256sum   $(ratio "$ssl" "$all") of openssl"
peak=$( { /usr/bin/time -f %M "$describe" "$file" "$folder/description" "$folder/records"; } 2>&1 )
echo "describe, peak      $peak KiB"
