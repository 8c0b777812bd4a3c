#!/usr/bin/env bash
# unchanged.sh OUT: that what build.sh compiled in OUT is the original's text, with one line more in four files. The status is 1 where it is not.
set -eu
[ $# -eq 1 ] || { sed -n 2p "$0" >&2; exit 2; }
. "$(dirname "$0")/original.sh"
out=$(cd "$1" && pwd)
cd "$original/crates"
same=0 longer=0 other=0
while read -r file; do
    if cmp -s "$file" "$out/crates/$file"; then
        same=$((same + 1))
    elif head -n -1 "$out/crates/$file" | cmp -s "$file" -; then
        longer=$((longer + 1))
    else
        other=$((other + 1))
        echo "differs: $file"
    fi
done < <(find . -name '*.rs' | sort)
echo "$same files as they are, $longer with one line more, $other differ"
[ "$longer" -eq 4 ] && [ "$other" -eq 0 ]
