#!/usr/bin/env bash
# Makes the Debian package of the built program, with pressroom, man pages, documents, completion and
# examples. Build the program first: rt ci
# usage: package/deb.sh [PROGRAM]      it leaves package/out/plateroom_VERSION_amd64.deb and prints its path
# It needs dpkg-deb, git, Debian's python3, scdoc and strip. With these of one release of Debian, one commit
# and one program give the same package, byte for byte, wherever and whenever it is made. DEBFULLNAME and
# DEBEMAIL name another maintainer than the last commit's author.
set -euo pipefail
program=$(realpath "${1:-$(dirname "$0")/../crates/plateroom/out/plateroom}")
cd "$(dirname "$0")/.."
umask 022
export LC_ALL=C TZ=UTC SOURCE_DATE_EPOCH PYTHONDONTWRITEBYTECODE=1

# The version and its day are those of the first numbered heading of the changelog.
releases() { sed -n 's/^## \[\([0-9.]*\)\] - \([0-9-]*\)$/\1 \2/p' CHANGELOG.md; }
read -r version day < <(releases)
SOURCE_DATE_EPOCH=$(date -d "$day" +%s)
maintainer=$(git log -1 --format='%an <%ae>')
if [ -n "${DEBFULLNAME:-}" ] && [ -n "${DEBEMAIL:-}" ]; then
  maintainer="$DEBFULLNAME <$DEBEMAIL>"
fi

out=package/out
root=$out/root
docs=$root/usr/share/doc/plateroom
own=$root/usr/share/plateroom

# Copies what git keeps of FILES into FOLDER, each at its path.
copy() { # FOLDER FILES..
  local to=$1
  shift
  git ls-files -z -- "$@" ':!:**/.gitignore' | tar --null -T - -c | tar -x -C "$to" --no-same-owner
}

programs() {
  install -D -m 755 "$program" "$root/usr/bin/plateroom"
  strip --strip-unneeded --remove-section=.comment "$root/usr/bin/plateroom"
  # Python takes a script's modules from the folder in which the script itself is, behind all links.
  ln -s ../share/plateroom/tools/pressroom.py "$root/usr/bin/pressroom"
  # pressroom runs the scripts of examples/queue, and must not depend on a file below /usr/share/doc.
  copy "$own" tools ':!:tools/tests' ':!:tools/bin' examples/queue
  # The documents name files of tools/ as seen from the examples.
  ln -s ../../plateroom/tools "$docs/tools"
}

man_pages() {
  local page name section
  for page in docs/*.scd; do
    name=$(basename "$page" .scd)
    section=$root/usr/share/man/man${name##*.}
    install -d "$section"
    /usr/bin/python3 package/page.py "$page" "$version" | scdoc | gzip -9nc > "$section/$name.gz"
  done
  for name in $(/usr/bin/python3 package/table.py commands); do
    /usr/bin/python3 package/table.py man "$name" "$version" | scdoc | gzip -9nc > "$root/usr/share/man/man1/pressroom-$name.1.gz"
  done
}

documents() {
  /usr/bin/python3 package/documents.py "$docs"
  install -m 644 package/copyright "$docs/copyright"
  gzip -9nc CHANGELOG.md > "$docs/changelog.gz"
  releases | while read -r number date; do
    printf 'plateroom (%s-1) unstable; urgency=medium\n\n' "$number"
    printf '  * Version %s: changelog.gz says what is new.\n\n' "$number"
    printf ' -- %s  %s\n\n' "$maintainer" "$(date -R -d "$date")"
  done | gzip -9nc > "$docs/changelog.Debian.gz"
}

# Writes pressroom's completion of a shell below /usr/share.
completion_of() { # SHELL PATH
  install -d "$root/usr/share/$(dirname "$2")"
  /usr/bin/python3 package/table.py "$1" > "$root/usr/share/$2"
  chmod 644 "$root/usr/share/$2"
}

# Units are installed, and neither enabled nor started.
integration() {
  local file name
  for file in package/completion/*; do
    install -D -m 644 "$file" "$root/usr/share/bash-completion/completions/$(basename "$file")"
  done
  completion_of bash bash-completion/completions/pressroom
  completion_of zsh zsh/vendor-completions/_pressroom
  completion_of fish fish/vendor_completions.d/pressroom.fish
  git ls-files -z -- package/systemd | while read -r -d '' file; do
    name=$(basename "$file")
    case $name in
      *.sysusers) install -D -m 644 "$file" "$root/usr/lib/sysusers.d/${name%.*}.conf" ;;
      *.tmpfiles) install -D -m 644 "$file" "$root/usr/lib/tmpfiles.d/${name%.*}.conf" ;;
      *) install -D -m 644 "$file" "$root/lib/systemd/system/$name" ;;
    esac
  done
}

# Modes, the interpreter's path, and times that no checkout changes.
settle() {
  local file
  find "$root" -type d -exec chmod 755 {} +
  find "$root" -path "$root/usr/bin" -prune -o -type f -exec chmod 644 {} +
  find "$root/usr/share" -type f \( -name '*.py' -o -name '*.sh' \) -print0 | while read -r -d '' file; do
    if head -c 2 "$file" | grep -q '^#!'; then
      sed -i '1s|^#!/usr/bin/env python3$|#!/usr/bin/python3|' "$file"
      chmod 755 "$file"
    fi
  done
}

control() {
  local libc size script
  # The C library is the one shared library; the program says which version of it has all that it calls.
  libc=$(grep -ao 'GLIBC_2\.[0-9.]*' "$root/usr/bin/plateroom" | sort -uV | tail -n 1 | cut -d _ -f 2)
  # Policy 5.6.20: files in whole KiB, and one KiB for anything else.
  size=$(find "$root" -mindepth 1 -path "$root/DEBIAN" -prune -o -printf '%y %s\n' |
    awk '{ sum += $1 == "f" ? int(($2 + 1023) / 1024) : 1 } END { print sum }')
  sed -e "s/@VERSION@/$version-1/" -e "s/@MAINTAINER@/$maintainer/" -e "s/@LIBC@/$libc/" \
    -e "s/@SIZE@/$size/" package/control > "$root/DEBIAN/control"
  (cd "$root" && find . -path ./DEBIAN -prune -o -type f -printf '%P\0' | sort -z |
    xargs -0 md5sum > DEBIAN/md5sums)
  chmod 644 "$root/DEBIAN/control" "$root/DEBIAN/md5sums"
  for script in postinst prerm postrm; do
    install -m 755 "package/$script" "$root/DEBIAN/$script"
  done
}

rm -rf "$root"
rm -f "$out"/plateroom_*_amd64.deb
install -d "$root/DEBIAN" "$docs" "$own"
programs
man_pages
documents
integration
settle
/usr/bin/python3 package/sbom.py "$root" "$version" "$day" > "$docs/plateroom.spdx.json"
chmod 644 "$docs/plateroom.spdx.json"
control
find "$root" -exec touch --no-dereference --date="@$SOURCE_DATE_EPOCH" {} +

package=$out/plateroom_${version}_amd64.deb
dpkg-deb --build --root-owner-group -Zxz "$root" "$package" > /dev/null
rm -r "$root"
echo "$package"
