#!/usr/bin/env bash
# make install, as a C program's author and a packager meet it: the command runs, examples/luces.c is built by pkg-config on the shared and on the static
# library, header, package and libraries tell one version, only the header's calls are exported, and make uninstall leaves nothing.
set -eu
cd "$(dirname "$0")/.."
# no PREFIX has blanks in it, as a folder for what is temporary may
work=$(TMPDIR=/tmp mktemp -d)
trap 'rm -rf "$work"' EXIT
image=crates/check_image/data/grammar.img
prefix=$work/usr
make --no-print-directory install PREFIX="$prefix"

# package OPTION...: what the installed package file tells; by sed where there is no pkg-config
package() {
    if command -v pkg-config >/dev/null; then
        PKG_CONFIG_PATH=$prefix/lib/pkgconfig pkg-config "$@" headwords
    else
        for option; do
            sed -n "s/^${option#--}: //Ip" <(sed 's/^Version/modversion/' "$prefix/lib/pkgconfig/headwords.pc") | sed "s|\${libdir}|$prefix/lib|; s|\${includedir}|$prefix/include|"
        done
    fi
}

version=$(package --modversion)
[ "$version" = "$(sed -n 's/^version = "\(.*\)"$/\1/p' command/Cargo.toml)" ]
[ "$("$prefix/bin/headwords" --version)" = "headwords $version" ]
cat >"$work/version.c" <<'END'
#include "headwords.h"
#include <stdio.h>
int main(void)
{
    printf("%d.%d.%d %s\n", HEADWORDS_VERSION_MAJOR, HEADWORDS_VERSION_MINOR, HEADWORDS_VERSION_PATCH, HEADWORDS_VERSION);
    return 0;
}
END
# shellcheck disable=SC2046
cc -std=c99 -Wall -Wextra -Werror $(package --cflags) -o "$work/version" "$work/version.c"
[ "$("$work/version")" = "$version $version" ]
echo "version $version: told by header, package, command and its Cargo.toml"

# shellcheck disable=SC2046
cc -std=c99 -O1 -Wall -Wextra -Werror -o "$work/shared" examples/luces.c $(package --cflags --libs)
LD_LIBRARY_PATH=$prefix/lib "$work/shared" "$image" | diff examples/luces.out -
LD_LIBRARY_PATH=$prefix/lib ldd "$work/shared" | grep -q "libheadwords.so.${version%%.*} => $prefix/lib/"
# shellcheck disable=SC2046
cc -std=c99 -O1 -Wall -Wextra -Werror -o "$work/static" examples/luces.c -Wl,-Bstatic $(package --cflags --libs) -Wl,-Bdynamic
"$work/static" "$image" | diff examples/luces.out -
echo "examples/luces.c: built by pkg-config, shared and static, and run"

[ "$(readlink -f "$prefix/lib/libheadwords.so")" = "$prefix/lib/libheadwords.so.$version" ]
nm -D --defined-only "$prefix/lib/libheadwords.so" | sed "s/.* T //" | LC_ALL=C sort >"$work/exported"
sed -n 's/^uint64_t \(headwords_[a-z_]*\)(.*/\1/p' include/headwords.h | LC_ALL=C sort | diff - "$work/exported"
readelf -d "$prefix/lib/libheadwords.so" | grep TEXTREL && exit 1
echo "the shared library exports the header's calls and nothing else"

"$prefix/bin/headwords" check "$image" >"$work/said"
(cd / && "$prefix/bin/headwords" show "$OLDPWD/grammars/luz.txt") | diff - <(printf '0\tZ becomes c before +e\n')
echo "the installed command: runs, from any folder"

# a package: the same files below DESTDIR, and PREFIX alone inside them
make --no-print-directory install DESTDIR="$work/package" PREFIX=/opt/headwords
grep -qx 'prefix=/opt/headwords' "$work/package/opt/headwords/lib/pkgconfig/headwords.pc"
diff <(cd "$prefix" && find . | sort) <(cd "$work/package/opt/headwords" && find . | sort)
make --no-print-directory uninstall DESTDIR="$work/package" PREFIX=/opt/headwords
make --no-print-directory uninstall PREFIX="$prefix"
[ -z "$(find "$prefix" "$work/package" ! -type d)" ]
for wrong in here "/a b" ""; do
    status=0
    make --no-print-directory install PREFIX="$wrong" >"$work/said" 2>&1 || status=$?
    [ "$status" -eq 2 ]
    grep -q '^usage: ' "$work/said"
done
echo "DESTDIR, uninstall and a wrong PREFIX: as they should be"
