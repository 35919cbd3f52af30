#!/bin/sh
# floatstore_build.sh [OUT]: compiles the tool, with the version that the file VERSION says. Run it by run.sh.
top=$(cd "$(dirname "$0")/.." && pwd) || exit 1
version=$(head -n 1 "$top/VERSION" 2>/dev/null | tr -cd '0-9A-Za-z.+-')
out=${1:-$top/target/c/floatstore}
set --
for part in floatstore floatstore_image floatstore_words floatstore_look floatstore_salvage floatstore_map reading; do set -- "$@" "$top/tools/$part.c"; done
exec "$top/tools/cc.sh" "$out" "-DTOOL_VERSION=\"${version:-unreleased}\"" "$@" -lm
