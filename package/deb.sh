#!/bin/sh
# Makes a Debian package of programs that are built: deb.sh BUILT FOLDER. BUILT/NAME/out/NAME is the program of each name. The package
# goes into FOLDER, which must be there; its name is the last line. It needs dpkg-deb and no network.
set -eu
here=$(cd "$(dirname "$0")" && pwd)
top=$(dirname "$here")
built=$(cd "$1" && pwd)
into=$(cd "$2" && pwd)
command -v dpkg-deb > /dev/null || { echo "deb.sh: there is no dpkg-deb: install the package dpkg" >&2; exit 1; }
version=$("$built/avscan/out/avscan" --version | sed -n 's/^avscan //p')
case $version in
[0-9]*) ;;
*) echo "deb.sh: avscan --version gives no version" >&2; exit 1 ;;
esac
room=$(mktemp -d)
trap 'rm -rf "$room"' EXIT
root=$room/root
doc=$root/usr/share/doc/vizdroun
umask 022
mkdir -p "$root/DEBIAN" "$doc/examples"

make -s -C "$top" install-built BUILT="$built" DESTDIR="$root" PREFIX=/usr > "$room/log" || { cat "$room/log" >&2; exit 1; }
# names of functions are of no use to who installs it
if command -v strip > /dev/null; then
    strip --strip-unneeded "$root"/usr/bin/* 2> "$room/log" || true
fi
find "$root/usr/share/man" -type f -exec gzip -9n {} +
mkdir -p "$root/usr/share/zsh/vendor-completions"
mv "$root"/usr/share/zsh/site-functions/* "$root/usr/share/zsh/vendor-completions"
rmdir "$root/usr/share/zsh/site-functions"

# where the files of a checkout lie once they are installed
installed='s,/usr/local/bin/,/usr/bin/,; s,docs/\([A-Z-]*\).md,/usr/share/doc/vizdroun/\1.md.gz,; s,examples/fanotify,/usr/share/doc/vizdroun/&,'
for unit in avscan-guard avscan-service avscan-spare avscan-onaccess; do
    # the helper has a unit only if it could be built
    [ "$unit" != avscan-onaccess ] || [ -x "$root/usr/bin/avguard-onaccess" ] || continue
    install -d "$root/usr/lib/systemd/system"
    sed "$installed" "$top/examples/systemd/$unit.service" > "$root/usr/lib/systemd/system/$unit.service"
done
install -D -m 644 "$here/vizdroun.sysusers" "$root/usr/lib/sysusers.d/vizdroun.conf"
install -D -m 644 "$top/examples/systemd/avscan.tmpfiles" "$root/usr/lib/tmpfiles.d/vizdroun.conf"
install -D -m 644 "$here/signatures.avsig" "$root/etc/avscan/signatures.avsig"
for settings in avguard.conf onaccess.env; do
    sed "$installed" "$top/examples/systemd/$settings" > "$root/etc/avscan/$settings"
done

for page in README CHANGELOG; do
    install -m 644 "$top/$page.md" "$doc"
done
install -m 644 "$top"/docs/*.md "$doc"
mv "$doc/CHANGELOG.md" "$doc/changelog"
find "$doc" -maxdepth 1 -type f -size +3k -exec gzip -9n {} +
[ -f "$doc/changelog.gz" ] || gzip -9n "$doc/changelog"
sh "$here/copyright.sh" > "$doc/copyright"
cp -R "$top"/examples/client "$top"/examples/fanotify "$top"/examples/*.avs "$top"/examples/*.avsig "$top"/examples/*.txt "$doc/examples"
find "$doc/examples" -name '*.py' -exec chmod 644 {} +

size=$(du -sk --apparent-size "$root/usr" "$root/etc" | awk '{ all += $1 } END { print all }')
architecture=$(dpkg-deb --print-architecture 2> /dev/null || dpkg --print-architecture)
sed -e "s/@VERSION@/$version/; s/@ARCHITECTURE@/$architecture/; s/@SIZE@/$size/" "$here/control.in" > "$root/DEBIAN/control"
printf '/etc/avscan/%s\n' avguard.conf onaccess.env signatures.avsig > "$root/DEBIAN/conffiles"
for script in postinst prerm postrm; do
    install -m 755 "$here/$script" "$root/DEBIAN/$script"
done
(cd "$root" && find usr -type f -print0 | sort -z | xargs -0 md5sum) > "$root/DEBIAN/md5sums"

package=$into/vizdroun_${version}_$architecture.deb
dpkg-deb --root-owner-group --build "$root" "$package" > "$room/log" || { cat "$room/log" >&2; exit 1; }
echo "$package"
