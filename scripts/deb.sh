#!/bin/sh
# deb.sh: packs what scripts/dist.sh has put into build/simd_json-VERSION-x86_64-linux as a Debian package,
# build/simd-json-proved_VERSION_amd64.deb: programs, library, pages and completion under /usr, without the packages for Python and Rust.
set -eu
umask 022
cd "$(dirname "$0")/.."
version=$(sed -n 's/^#define SIMD_JSON_VERSION_[A-Z]* //p' include/simd_json.h | paste -sd.)
abi=${version%.*}
from=build/simd_json-$version-x86_64-linux root=build/deb name=simd-json-proved
doc=$root/usr/share/doc/$name
maintainer='Pepperbank maintainers <maintainers@users.noreply.pepperbank.example>'
if ! command -v dpkg-deb > /dev/null; then
    echo "deb.sh: left out: no dpkg-deb"
    exit 0
fi

rm -rf "$root"
mkdir -p "$root/DEBIAN" "$doc"
cp -R "$from/bin" "$from/include" "$from/lib" "$from/share" "$root/usr/"
chmod 644 "$root"/usr/lib/libsimd_json.so.*.*.* "$root"/usr/lib/glibc-hwcaps/*/libsimd_json.so.*.*.*
mkdir -p "$root/usr/lib/x86_64-linux-gnu"
mv "$root/usr/lib/pkgconfig" "$root/usr/lib/x86_64-linux-gnu/"
sed -i 's|^prefix=.*|prefix=/usr|' "$root/usr/lib/x86_64-linux-gnu/pkgconfig/simd_json.pc"
gzip -9n "$root"/usr/share/man/man?/*
cp -R "$from/docs/." "$from/examples" "$from/SECURITY.md" "$from/simd_json.spdx.json" "$doc/"
gzip -9nc CHANGELOG.md > "$doc/CHANGELOG.md.gz"
{
    printf '%s (%s) unstable; urgency=medium\n\n  * See CHANGELOG.md.gz.\n\n' "$name" "$version"
    printf ' -- %s  Thu, 01 Jan 2026 00:00:00 +0000\n' "$maintainer"
} | gzip -9n > "$doc/changelog.gz"
{
    printf '%s is by its authors, under the MIT license or the Apache License 2.0, of which the second is in\n' "$name"
    printf '/usr/share/common-licenses/Apache-2.0:\n\n'
    cat LICENSE-MIT
    find "$from/licenses" -type f ! -name LICENSE-APACHE | LC_ALL=C sort | while read -r file; do
        printf '\n%s, which is linked in:\n\n' "$(basename "$(dirname "$file")")"
        cat "$file"
    done
} > "$doc/copyright"

overrides=$root/usr/share/lintian/overrides
mkdir -p "$overrides"
cat > "$overrides/$name" << END
# Programs, library and headers are released together, so they are one package.
$name: link-to-shared-library-in-wrong-package *
$name: package-name-doesnt-match-sonames *
END

cat > "$root/DEBIAN/control" << END
Package: $name
Version: $version
Architecture: amd64
Maintainer: $maintainer
Depends: libc6 (>= 2.31)
Section: utils
Priority: optional
Installed-Size: $(du -k -s "$root/usr" | cut -f1)
Description: JSON parser whose results are proved
 The programs jcheck, which finds what is wrong in a JSON text, jpick, which
 reads values by JSON Pointers and JSONPaths, log_report, which counts the
 lines of a log, and jtape, which prints the nodes of a text; and the library
 simd_json for C and C++, static and shared.
END
echo "libsimd_json $abi $name (>= $version)" > "$root/DEBIAN/shlibs"
echo 'activate-noawait ldconfig' > "$root/DEBIAN/triggers"
(cd "$root" && find usr -type f | LC_ALL=C sort | xargs md5sum) > build/parts/md5sums
mv build/parts/md5sums "$root/DEBIAN/"
find "$root" -exec touch -h -d 2026-01-01T00:00Z {} +
SOURCE_DATE_EPOCH=1767225600 dpkg-deb --root-owner-group -Zxz --build "$root" "build/${name}_${version}_amd64.deb" > /dev/null
(cd build && sha256sum "${name}_${version}_amd64.deb" | tee -a SHA256SUMS)
