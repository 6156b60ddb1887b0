#!/usr/bin/env bash
# Makes build/libomf.a and build/libomf.so of the static library that `rt lib` or `rt ci` left in crates/omf_c/out, with three functions of the kit
# that call malloc, realloc and free. The kit's linker and its C library make both, so they have the same bytes on each machine. OBJECTS names a
# folder of objects to take in the place of the proved ones, and TO the folder of the libraries.
set -euo pipefail
cd "$(dirname "$0")/.."
kit=$(dirname "$(rt doc)")
to=$(realpath -m "${TO:-build}")
work=$(mktemp -d)
trap 'rm -rf "$work"' EXIT
mkdir -p "$to" "$work/objects"
rm -f "$to/libomf.a" "$to/libomf.so"
if [ -n "${OBJECTS:-}" ]; then
    cp "$OBJECTS"/*.o "$work/objects"
else
    (cd "$work/objects" && "$kit/toolchain/bin/llvm-ar" x "$OLDPWD/crates/omf_c/out/libomf_c.a")
fi
cd "$work/objects"
"$kit/toolchain/bin/llvm-ar" x "$kit/c/liblibc_c.a"
LC_ALL=C
objects=(*.o)
"$kit/toolchain/bin/llvm-ar" rcsD "$to/libomf.a" "${objects[@]}"
lib=$kit/toolchain/lib
"$kit/toolchain/bin/ld.lld" -shared -soname libomf.so -z relro -z now -z noexecstack -z defs --eh-frame-hdr --build-id=sha1 --threads=1 -o "$to/libomf.so" \
    "$lib/crti.o" "$lib/crtbeginS.o" "${objects[@]}" "$lib/libc.so.6" "$lib/libgcc.a" "$lib/crtendS.o" "$lib/crtn.o"
