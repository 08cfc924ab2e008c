#!/bin/sh
# Makes the Debian package of the built program: package.sh FOLDER puts it there and prints its path. The program is the
# one that `rt` built, or the one that the variable JAQHENDULU names; its bytes go in as they are.
set -eu
umask 022
[ $# = 1 ] || { echo "usage: package.sh FOLDER" >&2; exit 2; }
folder=$(cd "$1" && pwd)
cd "$(dirname "$0")/.."
program=${JAQHENDULU:-crates/serv_cli/out/serv_cli}
version=$(sed -n 's/.*VERSION: &str = "jaqhendulu \([0-9.]*\)".*/\1/p' crates/serv_cli/src/usage.rt)
[ -n "$version" ] || { echo "package.sh: no version in crates/serv_cli/src/usage.rt" >&2; exit 1; }
said=$("$program" 2>&1 | sed -n 2p)
[ "$said" = "jaqhendulu $version" ] || { echo "package.sh: $program is '$said', not $version" >&2; exit 1; }
SOURCE_DATE_EPOCH=${SOURCE_DATE_EPOCH:-$(git log -1 --format=%ct)}
export SOURCE_DATE_EPOCH
room=$(mktemp -d)
trap 'rm -rf "$room"' EXIT
root=$room/root

put() { install -D -m "$1" "$2" "$root/$3"; }
packed() { mkdir -p "$(dirname "$root/$1")"; gzip -9n > "$root/$1"; }

put 755 "$program" usr/bin/jaqhendulu
put 755 deploy/libexec/day usr/libexec/jaqhendulu/day
put 755 deploy/libexec/backup usr/libexec/jaqhendulu/backup
for unit in deploy/systemd/*.service deploy/systemd/*.timer; do
    put 644 "$unit" "lib/systemd/system/$(basename "$unit")"
done
put 644 deploy/systemd/sysusers.conf usr/lib/sysusers.d/jaqhendulu.conf
put 644 deploy/completion.bash usr/share/bash-completion/completions/jaqhendulu
put 644 deploy/debian/overrides usr/share/lintian/overrides/jaqhendulu
put 644 deploy/debian/copyright usr/share/doc/jaqhendulu/copyright
put 644 deploy/README.md usr/share/doc/jaqhendulu/README.md
for file in docs/*.md docs/*.json docs/guide/*.md; do
    put 644 "$file" "usr/share/doc/jaqhendulu/$file"
done
for file in deploy/systemd/books.conf deploy/nginx/jaqhendulu.conf; do
    put 644 "$file" "usr/share/doc/jaqhendulu/examples/$(basename "$file")"
done
for file in desk/*.html desk/*.css desk/*.js desk/*.svg; do
    put 644 "$file" "usr/share/jaqhendulu/$file"
done
for file in desk/README.md desk/pictures/*.png; do
    put 644 "$file" "usr/share/doc/jaqhendulu/$file"
done
for file in deploy/jobs/*; do
    sed "s/@VERSION@/$version/" "$file" > "$room/job"
    put 644 "$room/job" "usr/share/doc/jaqhendulu/examples/$(basename "$file")"
done
git ls-files examples | grep -v '\.\(py\|sh\)$' | while read -r file; do
    put 644 "$file" "usr/share/doc/jaqhendulu/$file"
done

day=$(date -u -d "@$SOURCE_DATE_EPOCH" +%Y-%m-%d)
python3 deploy/man.py "jaqhendulu $version" "$day" | packed usr/share/man/man1/jaqhendulu.1.gz
packed usr/share/doc/jaqhendulu/changelog.gz < CHANGELOG.md
maintainer=$(sed -n 's/^Maintainer: //p' deploy/debian/control)
packed usr/share/doc/jaqhendulu/changelog.Debian.gz <<END
jaqhendulu ($version-1) unstable; urgency=medium

  * The program of that version; changelog.gz says what is new in it.

 -- $maintainer  $(date -u -R -d "@$SOURCE_DATE_EPOCH")
END

libc=$(grep -ao 'GLIBC_2\.[0-9]*' "$program" | sed 's/GLIBC_//' | sort -uV | tail -1)
mkdir "$root/DEBIAN"
sed "s/@VERSION@/$version-1/; s/@LIBC@/$libc/; s/@SIZE@/$(du -sk --apparent-size "$root" | cut -f1)/" \
    deploy/debian/control > "$root/DEBIAN/control"
install -m 755 deploy/debian/postinst deploy/debian/prerm deploy/debian/postrm "$root/DEBIAN/"
(cd "$root" && find usr lib -type f | LC_ALL=C sort | xargs -d '\n' md5sum > DEBIAN/md5sums)
dpkg-deb --root-owner-group --build "$root" "$folder/jaqhendulu_$version-1_amd64.deb" > "$room/said"
echo "$folder/jaqhendulu_$version-1_amd64.deb"
