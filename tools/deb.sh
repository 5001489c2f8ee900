#!/usr/bin/env bash
# Makes a Debian package of what `make install` has put below a folder, with /usr as its prefix.
#
#     tools/deb.sh FOLDER VERSION PACKAGE        PACKAGE is the file that it makes; FOLDER is changed
#
# The same folder and commit give the same file, and the program in it has the bytes that were proved. Needs dpkg-deb, and binutils to
# find the oldest C library that will do.
set -eu
folder=$1 version=$2 package=$3
doc=$folder/usr/share/doc/ripngd

export SOURCE_DATE_EPOCH
SOURCE_DATE_EPOCH=$(git log -1 --format=%ct 2> /dev/null || echo 0)
maintainer=$(git log -1 --format='%an <%ae>' 2> /dev/null || echo 'nobody <nobody@localhost>')
date=$(date -uRd "@$SOURCE_DATE_EPOCH")
libc=$(objdump -T "$folder/usr/bin/ripngd" 2> /dev/null | grep -o 'GLIBC_[0-9.]*' | sort -uV | tail -n 1 | cut -d _ -f 2 || true)

# What Debian asks of the files: its own Python, pages and changes compressed, a licence or that there is none. It asks for a program
# without symbols, too, but this one stays as it was proved.
sed -i '1s|.*|#!/usr/bin/python3|' "$folder/usr/lib/ripngd-links/ripngd-links"
mkdir -p "$folder/etc/ripngd" "$folder/etc/ripngd-links" "$folder/usr/share/lintian/overrides" "$folder/DEBIAN"
echo 'ripngd: unstripped-binary-or-object' > "$folder/usr/share/lintian/overrides/ripngd"
gzip -9nf "$folder"/usr/share/man/man8/*.8
install -m 644 "$(dirname "$0")/../companion/sample.toml" "$folder/etc/ripngd-links/sample.toml"
echo /etc/ripngd-links/sample.toml > "$folder/DEBIAN/conffiles"
# The points of docs/CHANGELOG.md for the newest version, as Debian wants them.
changes=$(awk '/^## /{if (seen++) exit; next} seen && /^- /{print "  * " substr($0, 3)} seen && /^  /{print "  " $0}' "$doc/docs/CHANGELOG.md")
printf 'ripngd (%s) unstable; urgency=medium\n\n%s\n\n -- %s  %s\n' "$version" "$changes" "$maintainer" "$date" | gzip -9n > "$doc/changelog.gz"
printf 'ripngd: a RIPng router, a companion for real links and a simulator\n\nCopyright (C) %s %s\n\n%s\n' "$(date -ud "@$SOURCE_DATE_EPOCH" +%Y)" \
    "$maintainer" 'No licence has been chosen yet, so all rights are reserved.' > "$doc/copyright"

cat > "$folder/DEBIAN/control" <<END
Package: ripngd
Version: $version
Architecture: amd64
Maintainer: $maintainer
Installed-Size: $(du -sk --exclude=DEBIAN "$folder" | cut -f 1)
Depends: libc6${libc:+ (>= $libc)}, python3 (>= 3.11), iproute2
Suggests: bird2
Section: net
Priority: optional
Description: RIPng router with proved rules, and network simulator
 A router for RIPng (RFC 2080) whose rules are proved: no distance is invented.
 The companion ripngd-links connects it to the links of the system, and keeps
 its routes in the kernel. A simulator runs whole networks from scripts, and
 in a browser.
END

# Routers that run are started anew by an upgrade, which forwards on, and ended by a removal. Configurations are the operator's, and stay.
routers="'ripngd@*.service' 'ripngd-links@*.service'"
cat > "$folder/DEBIAN/postinst" <<END
#!/bin/sh
set -e
if [ "\$1" = configure ] && [ -d /run/systemd/system ]; then
    systemctl daemon-reload
    [ -z "\$2" ] || systemctl try-restart $routers
fi
END
cat > "$folder/DEBIAN/prerm" <<END
#!/bin/sh
set -e
if [ "\$1" = remove ] && [ -d /run/systemd/system ]; then
    systemctl stop $routers
fi
rm -rf /usr/lib/ripngd-links/__pycache__
END
cat > "$folder/DEBIAN/postrm" <<END
#!/bin/sh
set -e
if [ -d /run/systemd/system ]; then
    systemctl daemon-reload
fi
END

(cd "$folder" && find usr -type f -print0 | LC_ALL=C sort -z | xargs -0 md5sum > DEBIAN/md5sums)
find "$folder" -type d -exec chmod 755 {} +
find "$folder/usr/share" -type f -exec chmod 644 {} +
chmod 755 "$folder/DEBIAN/postinst" "$folder/DEBIAN/prerm" "$folder/DEBIAN/postrm" "$doc/companion/bird.sh"
chmod 644 "$folder/DEBIAN/control" "$folder/DEBIAN/md5sums" "$folder/DEBIAN/conffiles"
dpkg-deb --root-owner-group --build "$folder" "$package"
