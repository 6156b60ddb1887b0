#!/usr/bin/env bash
# Copies crates and all crates below them into another repository: vendor.sh DEST CRATE..
#
# Each crate's folder goes to DEST/crates/, in place of an older copy, without its out/; its line of crates.txt goes into DEST/crates.txt, in
# place of an older line. DEST/crates/OMF-VERSION has the version and the commit that they are from.
set -euo pipefail
dest=${1:?usage: vendor.sh DEST CRATE..}
shift
[ $# -gt 0 ] || { echo "usage: vendor.sh DEST CRATE.." >&2; exit 2; }
from=$(cd "$(dirname "$0")/.." && pwd)
[ -d "$dest" ] || { echo "there is no folder $dest" >&2; exit 2; }
dest=$(cd "$dest" && pwd)
[ "$dest" != "$from" ] || { echo "$dest is this repository" >&2; exit 2; }

line_of() { grep -E "^$1( staticlib)?:" "$from/crates.txt"; }

# A crate's line names all crates below it, those of the kit too.
names=()
for crate in "$@"; do
    line=$(line_of "$crate") || { echo "there is no crate $crate" >&2; exit 2; }
    for name in $crate ${line#*:}; do
        if [ -d "$from/crates/$name" ]; then names+=("$name"); fi
    done
done
mkdir -p "$dest/crates"
touch "$dest/crates.txt"
while IFS= read -r name; do
    rm -rf "${dest:?}/crates/$name"
    (cd "$from/crates" && tar --exclude="$name/out" -cf - "$name") | tar -C "$dest/crates" -xf -
    { grep -vE "^$name( staticlib)?:" "$dest/crates.txt" || true; line_of "$name"; } > "$dest/crates.txt.new"
    mv "$dest/crates.txt.new" "$dest/crates.txt"
    echo "$name"
done < <(printf '%s\n' "${names[@]}" | sort -u)
printf '%s %s\n' "$(cat "$from/VERSION")" "$(git -C "$from" rev-parse HEAD 2> /dev/null || echo 'no commit')" > "$dest/crates/OMF-VERSION"
