#!/bin/sh
# The Debian package of programs that are built: what it has, and what dpkg does with it in a folder of its own: it is installed,
# installed again over files that were changed, removed, and purged. The last line counts the checks.
# usage: tests/deb.sh PROGRAM, avscan in the folder of its crate, beside whose crate those of the other programs are
set -eu
built=$(realpath "$(dirname "$1")/../..")
cd "$(dirname "$0")/.."
command -v dpkg-deb > /dev/null || { echo "deb: there is no dpkg-deb: not tried"; echo "0 passed, 0 failed"; exit 0; }
room=$(mktemp -d)
trap 'rm -rf "$room"' EXIT
passed=0
failed=0
# what is to hold, and a command that has to succeed
check() {
    what=$1
    shift
    if "$@" > "$room/said" 2>&1; then
        passed=$((passed + 1))
    else
        echo "deb: not so: $what"
        cat "$room/said"
        failed=$((failed + 1))
    fi
}
not() {
    ! "$@"
}

package=$(sh package/deb.sh "$built" "$room" | tail -n 1)
check "its name has its version" test "$(basename "$package")" = "vizdroun_$("$1" --version | cut -d' ' -f2)_$(dpkg --print-architecture).deb"
check "dpkg reads its fields" sh -c "dpkg-deb --field '$package' Package Description | grep -q vizdroun"
mkdir "$room/control" "$room/files"
dpkg-deb -e "$package" "$room/control"
dpkg-deb -x "$package" "$room/files"
for script in postinst prerm postrm; do
    check "$script is a script" sh -n "$room/control/$script"
done
for file in avguard.conf onaccess.env signatures.avsig; do
    check "$file is kept as the user has it" grep -qx "/etc/avscan/$file" "$room/control/conffiles"
done
check "each file has a checksum" sh -c "cd '$room/files' && md5sum --quiet -c '$room/control/md5sums'"
for name in avscan avguard avtool; do
    check "$name runs" "$room/files/usr/bin/$name" --version
    check "$name has a page" gzip -t "$room/files/usr/share/man/man1/$name.1.gz"
    check "bash completes $name" bash -n "$room/files/usr/share/bash-completion/completions/$name"
done
if printf '#include <sys/fanotify.h>\n' | cc -fsyntax-only -xc - 2> /dev/null; then
    check "the helper for fanotify runs" "$room/files/usr/bin/avguard-onaccess" -h
    check "its unit starts it" grep -q "^ExecStart=/usr/bin/avguard-onaccess " "$room/files/usr/lib/systemd/system/avscan-onaccess.service"
    check "its unit gives it no mounts of its own" not grep -qE "^(Protect(System|Home|Proc|Kernel[A-Za-z]*|ControlGroups)|Private(Tmp|Devices|Mounts)|ProcSubset|(ReadWrite|ReadOnly|Inaccessible)Paths)=" "$room/files/usr/lib/systemd/system/avscan-onaccess.service"
fi
check "the header for programs is there" test -s "$room/files/usr/include/avask.h"
check "the guard's settings are good" "$room/files/usr/bin/avguard" check-config "$room/files/etc/avscan/avguard.conf"
check "the guard's unit names them" grep -q "^ExecStart=/usr/bin/avguard run --config /etc/avscan/avguard.conf$" "$room/files/usr/lib/systemd/system/avscan-guard.service"
check "the guard denies what can't be judged" grep -qx "open = false" "$room/files/etc/avscan/avguard.conf"
check "the signatures are a set" "$room/files/usr/bin/avscan" check "$room/files/etc/avscan/signatures.avsig"
check "the license is there" grep -q "Apache-2.0 or MIT" "$room/files/usr/share/doc/vizdroun/copyright"
check "the changes are there" gzip -t "$room/files/usr/share/doc/vizdroun/changelog.gz"
check "nothing is of the user who built it" sh -c "! dpkg-deb -c '$package' | grep -v ' root/root '"
check "no file can be written by others" sh -c "! dpkg-deb -c '$package' | grep -E '^-.{7}w'"
for unit in avscan-guard avscan-service avscan-spare; do
    check "the unit $unit starts the installed program" grep -q "^ExecStart=/usr/bin/av" "$room/files/usr/lib/systemd/system/$unit.service"
done
if command -v systemd-analyze > /dev/null; then
    # (the programs and a shell are not where these units look for them)
    mkdir "$room/units"
    for unit in "$room"/files/usr/lib/systemd/system/*.service; do
        sed -E 's,=-?(/usr/bin/av[a-z-]*|/bin/[a-z]+) ,=/bin/true ,' "$unit" > "$room/units/$(basename "$unit")"
    done
    check "systemd reads the units" systemd-analyze verify --man=no "$room"/units/*.service
    for unit in avscan-guard avscan-service avscan-spare; do
        check "the exposure of $unit is at most 1.0" systemd-analyze security --offline=true --threshold=10 --no-pager "$room/files/usr/lib/systemd/system/$unit.service"
    done
fi
check "no unit names a folder of a build" sh -c "! grep -r /usr/local '$room/files/usr/lib'"

# a system of its own, of which dpkg knows nothing yet
system=$room/system
mkdir -p "$system/var/lib/dpkg/info" "$system/var/lib/dpkg/updates" "$system/etc"
: > "$system/var/lib/dpkg/status"
: > "$system/etc/group"
: > "$system/etc/gshadow"
with_dpkg() {
    dpkg --root="$system" --log="$room/dpkg.log" --force-script-chrootless --force-not-root --force-confold --force-depends "$@" > "$room/dpkg" 2>&1
}
check "it is installed" with_dpkg -i "$package"
check "two lines say how to start it" test "$(grep -c '^vizdroun: ' "$room/dpkg")" = 2
check "the groups are there" test "$(grep -cE '^avscan(-ask)?:' "$system/etc/group")" = 2
check "what is installed runs" "$system/usr/bin/avscan" check "$system/etc/avscan/signatures.avsig"
echo '# of this machine' >> "$system/etc/avscan/signatures.avsig"
echo '# of this machine' >> "$system/etc/avscan/avguard.conf"
check "it is installed over itself" with_dpkg -i "$package"
check "an update says nothing of a first start" not grep -q '^vizdroun: ' "$room/dpkg"
check "a changed signature file stays" grep -q 'of this machine' "$system/etc/avscan/signatures.avsig"
check "changed settings stay" grep -q 'of this machine' "$system/etc/avscan/avguard.conf"
mkdir -p "$system/var/lib/avscan-guard"
check "it is removed" with_dpkg -r vizdroun
check "no program is left" not test -e "$system/usr/bin/avscan"
check "the signature file stays" test -e "$system/etc/avscan/signatures.avsig"
check "it is purged" with_dpkg -P vizdroun
check "no file is left" not test -e "$system/etc/avscan"
check "no state is left" not test -e "$system/var/lib/avscan-guard"
if command -v lintian > /dev/null; then
    check "lintian finds no error" lintian --fail-on error "$package"
fi
echo "$passed passed, $failed failed"
[ "$failed" = 0 ]
