#!/usr/bin/env bash
# Tries the package as somebody does who has nothing else: dist.sh [TAR] (dist/omf-VERSION-x86_64-linux.tar.xz; if there is none, the one in build/)
#
# It is unpacked where neither the kit nor this repository is, without a network and as a user without rights, and there:
# its sums are checked; the commands of its README.md, and of the pages README, C and PYTHON of the repository, must print what these show; the three
# sources of README become a DOS program (nasm); the wheel is installed by pip; bash completes by the completions.
# That place is a fresh Debian 12 (mmdebstrap makes it of some packages, two minutes, once; it is kept in build/debian-12.tar), or where there
# is no mmdebstrap or no mirror, the /usr of this system and nothing else of it. Both need bubblewrap. PLACE=usr asks for the second.
# Where the tar is the one in dist/, README.md must have the sums of the files there. The status is 0 where every try was right.
set -euo pipefail
cd "$(dirname "$0")/.."
version=$(cat VERSION)
name=omf-$version-x86_64-linux
tar=${1:-}
[ -n "$tar" ] || { [ -f "dist/$name.tar.xz" ] && tar=dist/$name.tar.xz || tar=build/$name.tar.xz; }
[ -f "$tar" ] || { echo "there is no $tar: make dist makes it" >&2; exit 2; }
command -v bwrap > /dev/null || { echo "skipped: bubblewrap is not installed"; exit 0; }
root=build/debian-12.tar
work=$(mktemp -d)
trap 'rm -rf "$work"' EXIT
mkdir "$work/in" "$work/try"
cp "$tar" "$work/in/package.tar.xz"
cp README.md docs/C.md docs/PYTHON.md tests/shown.sh "$work/in/"

if [ "${PLACE:-}" != usr ] && ! [ -f $root ] && command -v mmdebstrap > /dev/null; then
    mkdir -p build
    if mmdebstrap --variant=minbase --include=gcc,libc6-dev,nasm,pkgconf,python3-venv,xz-utils bookworm "$work/root.tar" > "$work/made" 2>&1; then
        mv "$work/root.tar" $root
    else
        tail -n 3 "$work/made"
    fi
fi
words=(--unshare-all --die-with-parent --new-session --clearenv --cap-drop ALL --uid 1000 --gid 1000 --hostname fresh --setenv HOME /try --setenv LC_ALL C)
if [ "${PLACE:-}" != usr ] && [ -f $root ]; then
    mkdir "$work/root"
    tar -C "$work/root" --exclude='./dev/*' -xf $root
    mkdir "$work/root/in" "$work/root/try"
    words+=(--ro-bind "$work/root" / --setenv PATH /usr/bin:/bin)
    place="Debian $(cat "$work/root/etc/debian_version"), with $(find "$work/root/var/lib/dpkg/info" -name '*.list' | wc -l) packages"
else
    words+=(--ro-bind /usr /usr --tmpfs /usr/local --symlink usr/bin /bin --symlink usr/lib /lib --symlink usr/lib64 /lib64 --setenv PATH /usr/bin)
    for it in /etc/alternatives /etc/ld.so.cache; do [ ! -e $it ] || words+=(--ro-bind "$it" "$it"); done
    place="the /usr of this system"
fi
words+=(--dev /dev --proc /proc --tmpfs /tmp --ro-bind "$work/in" /in --bind "$work/try" /try --chdir /try)

cat > "$work/in/try.sh" << 'END'
set -uo pipefail
tries=0 failed=0
try() { # try WHAT COMMAND..
    local what=$1
    shift
    tries=$((tries + 1))
    "$@" > /tmp/said 2>&1 || { failed=$((failed + 1)); echo "FAILED: $what"; tail -n 12 /tmp/said; }
}
alone() { ! command -v rt && ! [ -e /opt/rattle ] && ! [ -e /work ] && [ -z "$(ls /usr/local/bin 2> /dev/null)" ]; }
offline() { ! (exec 3<> /dev/tcp/1.1.1.1/53) 2> /dev/null; }
assembled() ( # the sources of README's first page
    cp -r examples/exe /tmp/exe && cd /tmp/exe && rm ./*.obj
    nasm -f obj main.asm && nasm -f obj show.asm && nasm -f obj report.asm && omf-link exe -o prog.exe main.obj show.obj report.obj && cmp prog.exe /tmp/prog.exe
)
installed() {
    python3 -m venv /tmp/venv && /tmp/venv/bin/pip install -q --no-index --disable-pip-version-check python/*.whl \
        && (cd /tmp && /tmp/venv/bin/python -c 'import omf; print(omf.find_library(), omf.__version__)') \
        && /tmp/venv/bin/python examples/python/show.py examples/first.omf examples/first.place
}
completed() {
    bash --norc -c '. share/bash-completion/completions/omf; complete -p omf omf-link' | grep -c . | grep -qx 2
}
linked() {
    cc -Iinclude examples/c/link.c lib/libomf.a -o /tmp/static && cc $(pkg-config --cflags --libs omf) -x c examples/c/list.c -x none -Llib -lomf -o /tmp/shared \
        && /tmp/shared examples/first.omf > /tmp/listed && [ "$(pkg-config --modversion omf)" = "$(omf-dump --version | awk '{ print $2 }')" ]
}

try "the kit and the repository are not here" alone
try "there is no network" offline
try "the tar is unpacked" tar xf /in/package.tar.xz
cd omf-*/ || exit 1
try "the sums" sha256sum -c --quiet SHA256SUMS
export PATH=$PWD/bin:$PATH
mkdir tests build pages
cp /in/shown.sh tests/
cp /in/*.md pages/
ln -s ../lib/libomf.so build/
for program in omf-place omf-link omf-dump omf-lib omf-find; do try "$program --version" "$program" --version; done
try "the commands of its README.md" tests/shown.sh README.md
grep -E '^[0-9]+ commands' /tmp/said
export PKG_CONFIG_PATH=$PWD/lib/pkgconfig LD_LIBRARY_PATH=$PWD/lib
for page in README C PYTHON; do
    try "the commands of $page" tests/shown.sh "pages/$page.md"
    echo "$page: $(grep -E '^[0-9]+ commands' /tmp/said)"
done
for name in boot link pair firmware find order; do [ ! -f "examples/$name/run.sh" ] || try "examples/$name/run.sh" "examples/$name/run.sh"; done
command -v nasm > /dev/null && try "three sources become a DOS program" assembled
try "the C examples, static and shared" linked
unset LD_LIBRARY_PATH
python3 -c 'import ensurepip' 2> /dev/null && try "the wheel by pip" installed
try "bash completes" completed
echo "$tries tries, $failed failed"
[ $failed -eq 0 ]
END

sums() { # of README.md and of dist/
    local it
    for it in "$name.tar.xz" omf.html; do grep -qF "$(sha256sum "dist/$it" | cut -d' ' -f1)  dist/$it" README.md || { echo "FAILED: README.md has another sum of dist/$it"; return 1; }; done
}
echo "$tar in $place:"
status=0
bwrap "${words[@]}" bash /in/try.sh || status=1
[ "$tar" != "dist/$name.tar.xz" ] || sums || status=1
exit $status
