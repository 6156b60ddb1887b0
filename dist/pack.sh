#!/usr/bin/env bash
# Packs what `make build library page` left into build/omf-VERSION-x86_64-linux.tar.xz: pack.sh PROGRAM..
#
# A PROGRAM is NAME=FILE: its name in bin/, and the proved program. LIBRARIES is the folder of libomf.a and libomf.so (build), PAGE the page
# (build/omf.html), TO the folder of the tar (build). dist/GATE is packed if it is of these sources: dist/gate.sh writes it.
# The same sources give the same bytes, with the kit and Python and xz of Debian 12: names are sorted, times are 0, the owner is 0.
set -euo pipefail
cd "$(dirname "$0")/.."
version=$(cat VERSION)
name=omf-$version-x86_64-linux
libraries=${LIBRARIES:-build}
page=${PAGE:-build/omf.html}
made=$(realpath -m "${TO:-build}")
sources=$(dist/sources.py)
grep -q "made of the sources $sources\." "$page" || { echo "$page is not of these sources: make page makes it anew" >&2; exit 1; }
work=$(mktemp -d)
trap 'rm -rf "$work"' EXIT
to=$work/$name

for program in "$@"; do
    install -D -m 755 "${program#*=}" "$to/bin/${program%%=*}"
    install -D -m 644 "man/${program%%=*}.1" "$to/share/man/man1/${program%%=*}.1"
done
install -D -m 644 completions/omf.bash "$to/share/bash-completion/completions/omf"
for program in "$@"; do [ "${program%%=*}" = omf ] || ln -s omf "$to/share/bash-completion/completions/${program%%=*}"; done
install -D -m 644 completions/_omf "$to/share/zsh/site-functions/_omf"
install -D -m 644 completions/omf.fish "$to/share/fish/vendor_completions.d/omf.fish"
install -D -m 644 "$libraries/libomf.a" "$to/lib/libomf.a"
install -D -m 755 "$libraries/libomf.so" "$to/lib/libomf.so"
install -D -m 644 include/omf.h "$to/include/omf.h"
mkdir -p "$to/lib/pkgconfig" "$to/python/omf" "$made"
# pkg-config replaces ${pcfiledir} by the folder of the file, so the tree may be anywhere.
sed "s|@PREFIX@|\${pcfiledir}/../..|; s|@VERSION@|$version|" include/omf.pc.in > "$to/lib/pkgconfig/omf.pc"
cp python/omf/__init__.py python/omf/py.typed "$to/python/omf/"
TO=$to/python dist/wheel.sh "$libraries/libomf.so" > /dev/null
dist/sources.py --list | sed -n 's|^[0-9a-f]*  \(examples/.*\)$|\1|p' | tar -cf - -T - | tar -C "$to" -xf -
cp LICENSE "$to/LICENSE"
# The other pages are in the repository alone.
sed -E 's/\[([^]]*)\]\([A-Z_]*\.md[^)]*\)/\1/g' docs/BELIEVE.md > "$to/BELIEVE.md"
cp "$page" "$to/omf.html"
if [ -f dist/GATE ] && grep -qx "sources $sources" dist/GATE; then
    cp dist/GATE "$to/GATE"
else
    printf 'sources %s\nno run of the gate was named\n' "$sources" > "$to/GATE"
fi
glibc=$(objdump -T "$to"/bin/* "$to/lib/libomf.so" | grep -o 'GLIBC_[0-9.]*' | sort -Vu | tail -n 1)
sed "s|@VERSION@|$version|g; s|@GLIBC@|${glibc#GLIBC_}|g" dist/package.md > "$to/README.md"
find "$to" -type d -exec chmod 755 {} +
find "$to" -type f -perm -u+x -exec chmod 755 {} +
find "$to" -type f ! -perm -u+x -exec chmod 644 {} +
(cd "$to" && find . -type f ! -name SHA256SUMS | LC_ALL=C sort | xargs -d '\n' sha256sum > SHA256SUMS)
chmod 644 "$to/SHA256SUMS"
LC_ALL=C tar --sort=name --mtime=@0 --owner=0 --group=0 --numeric-owner --format=ustar -C "$work" -cf - "$name" | xz -9e -T1 > "$made/$name.tar.xz"
(cd "$made" && sha256sum "$name.tar.xz" | tee "$name.tar.xz.sha256")
