#!/usr/bin/env bash
# Tries the page in headless Chromium: page.sh [FOLDER..]. PAGE names the page (build/omf.html); OMF, OMF_DUMP, OMF_PLACE and OMF_LIB the programs
# that its answers are compared with, over examples/ and the folders.
#
# Chromium is a package of Debian's (apt-get install chromium). Where it is not installed nothing is tried, and the status is 1.
set -euo pipefail
root=$(cd "$(dirname "$0")/.." && pwd)
page=${PAGE:-$root/build/omf.html}
export OMF=${OMF:-$root/crates/omf/out/omf} OMF_DUMP=${OMF_DUMP:-$root/crates/omf_dump/out/omf_dump} OMF_PLACE=${OMF_PLACE:-$root/crates/omf_place/out/omf_place}
export OMF_LIB=${OMF_LIB:-$root/crates/omf_lib/out/omf_lib}
if ! command -v chromium > /dev/null && ! command -v chromium-browser > /dev/null && ! command -v google-chrome > /dev/null; then
    echo "Chromium is not installed: the page was not tried" >&2
    exit 1
fi
[ -f "$page" ] || { echo "there is no $page: make page makes it" >&2; exit 2; }
for program in "$OMF" "$OMF_DUMP" "$OMF_PLACE" "$OMF_LIB"; do
    command -v "$program" > /dev/null || { echo "there is no program $program: OMF, OMF_DUMP, OMF_PLACE and OMF_LIB name them" >&2; exit 2; }
done
exec "$root/tests/page/main.py" "$page" "$@"
