#!/usr/bin/env bash
# Makes packages of toml-span: bash scripts/package.sh [DEST]
#
# DEST, by default the folder `out` of the repository, gets toml-span-VERSION-x86_64-linux.tar.gz and the Debian package
# toml-span_VERSION_amd64.deb. Both have what scripts/install.sh installs, and the licenses. The program is statically
# linked, so neither needs anything else. DEST also gets the extension of Visual Studio Code, toml-span-VERSION.vsix,
# which scripts/vsix.py makes without the toolchain. Packages that one toolchain makes of one commit are equal byte for
# byte: the time of their files is that of the last commit, or SOURCE_DATE_EPOCH. The Debian package's maintainer is
# that of DEBFULLNAME and DEBEMAIL, or the author of the last commit. The packages are listed with their SHA-256.
#
# Status: 0 done, 2 wrong arguments, 3 DEST can't be written, 5 a package can't be made.
source "$(dirname -- "$(readlink -f -- "$0")")/common.sh"
umask 022
if [ $# -gt 1 ] || [[ ${1-} == -* ]]; then fail 2 "usage: bash scripts/package.sh [DEST]"; fi
for tool in dpkg-deb gzip python3 tar; do
    command -v "$tool" >/dev/null || fail 5 "the command $tool is missing (Debian: dpkg, gzip, python3, tar)"
done
SOURCE_DATE_EPOCH=${SOURCE_DATE_EPOCH-$(git -C "$top" log -1 --format=%ct)} ||
    fail 5 "there is no commit to take the time from: set SOURCE_DATE_EPOCH (seconds since 1970)"
export SOURCE_DATE_EPOCH
destination=$(absolute "${1-$top/out}")
mkdir -p -- "$destination" && work=$(mktemp -d -- "$destination/.package-XXXXXX") ||
    fail 3 "${destination@Q} can't be written"
trap 'rm -rf -- "$work"' EXIT

root=$work/root
said=$(PATH=$root/usr/bin:$PATH bash "$top/scripts/install.sh" "$root/usr") || exit
if [[ $said != *"statically linked)" ]]; then
    fail 5 "the program can't be packaged, since it is dynamically linked: a package needs a C compiler with a static" \
        "C library (Debian: gcc, libc6-dev) and, for the proved build, \`rt run\` in crates/toml_span_cli"
fi
version=$("$root/usr/bin/toml-span" --version | grep -oE '[0-9]+(\.[0-9]+)+' | head -n 1)
name=toml-span-$version-x86_64-linux
mkdir -p -- "$root/DEBIAN" "$root/usr/share/doc/toml-span"
pages=$root/usr/share/doc/toml-span
licensed="toml-span is licensed under MIT OR Apache-2.0. The program contains parts of the GNU C Library, which is
licensed under LGPL-2.1-or-later."
{
    echo "$licensed The last license is at https://www.gnu.org/licenses; the others follow."
    cat -- "$top/LICENSE-MIT" "$top/LICENSE-APACHE"
} >"$pages/copyright"
cp -R -- "$root/usr" "$work/$name"
tar --sort=name --format=gnu --owner=0 --group=0 --numeric-owner --mtime="@$SOURCE_DATE_EPOCH" -C "$work" -c "$name" |
    gzip -9n >"$work/$name.tar.gz"

# the Debian package, as lintian wants it
mv -- "$root/usr/share/zsh/site-functions" "$root/usr/share/zsh/vendor-completions"
{
    echo "$licensed On Debian systems the last two are in /usr/share/common-licenses/Apache-2.0 and"
    echo "/usr/share/common-licenses/LGPL-2.1. The first follows."
    sed "s/^Copyright (c)/& $(date -u -d "@$SOURCE_DATE_EPOCH" +%Y)/" -- "$top/LICENSE-MIT"
} >"$pages/copyright"
DEBFULLNAME=${DEBFULLNAME-$(git -C "$top" log -1 --format=%an 2>/dev/null)} || DEBFULLNAME=toml_span
DEBEMAIL=${DEBEMAIL-$(git -C "$top" log -1 --format=%ae 2>/dev/null)} || DEBEMAIL=toml-span@localhost
maintainer="$DEBFULLNAME <$DEBEMAIL>"
cat >"$pages/changelog" <<END
toml-span ($version) unstable; urgency=medium

  * Version $version; its history is that of the repository.

 -- $maintainer  $(LC_ALL=C date -u -R -d "@$SOURCE_DATE_EPOCH")
END
mkdir -- "$root/usr/share/lintian" "$root/usr/share/lintian/overrides"
{
    echo "# so that it runs on any Linux"
    echo "toml-span: statically-linked-binary [usr/bin/toml-span]"
} >"$root/usr/share/lintian/overrides/toml-span"
gzip -9n "$root"/usr/share/man/man1/* "$pages/changelog"
size=$(find "$root/usr" -type f -printf '%s\n' | awk '{ bytes += $1 } END { print int((bytes + 1023) / 1024) }')
cat >"$root/DEBIAN/control" <<END
Package: toml-span
Version: $version
Architecture: amd64
Section: utils
Priority: optional
Maintainer: $maintainer
Installed-Size: $size
Description: check, query and edit TOML files
 Reports the errors of TOML 1.1 files with the lines that they are in, prints
 single values, and changes them without touching any other byte of the file.
END
(cd -- "$root" && find usr -type f -print0 | LC_ALL=C sort -z | xargs -0 md5sum >DEBIAN/md5sums)
find "$root" -exec touch -h -d "@$SOURCE_DATE_EPOCH" {} +
dpkg-deb --root-owner-group -Zxz --build "$root" "$work/toml-span_${version}_amd64.deb" >/dev/null ||
    fail 5 "dpkg-deb made no package: see above"
cd -- "$work"
for package in *.tar.gz *.deb; do
    mv -f -- "$package" "$destination/$package" || fail 3 "$package in ${destination@Q} can't be written"
    (cd -- "$destination" && sha256sum -- "$PWD/$package")
done
python3 "$top/scripts/vsix.py" "$destination" || exit
