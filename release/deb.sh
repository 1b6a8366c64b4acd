#!/usr/bin/env bash
# Makes the Debian package of what install.sh installs, with editors, examples and docs. Two calls make the same bytes. It
# builds nothing. In a clone it packs only files that git knows, in an unpacked archive what is there.
#
#   deb.sh [FOLDER]      into FOLDER, or release/out: kahn_VERSION_amd64.deb
set -eu
umask 022
top=$(CDPATH='' cd -- "$(dirname -- "${BASH_SOURCE[0]}")/.." && pwd)
case ${1:-} in -*) sed -n '2,/^set/s/^# \{0,1\}//p' "${BASH_SOURCE[0]}" >&2; exit 2 ;; esac
source "$top/release/program.sh"
source "$top/web/page.sh"
is_page_released || { echo "release/kahn.html isn't of these sources: \`bash web/build.sh\` makes it" >&2; exit 1; }
to=${1-$top/release/out}
[ -n "$to" ] || { echo "deb.sh: the folder's name is empty" >&2; exit 2; }
version=$(sed -nE 's/^## ([0-9]+\.[0-9]+\.[0-9]+)( .*)?$/\1/p' "$top/CHANGELOG.md" | head -n 1)
root=$(mktemp -d)
trap 'rm -rf "$root"' EXIT
chmod 755 "$root"
# All files have one time, the midnight of a day of the first release.
export SOURCE_DATE_EPOCH=1795564800

# known: the files of the repository that can be packed, one a line.
known() {
  if [ -e "$top/.git" ]; then
    env -u GIT_DIR -u GIT_WORK_TREE -u GIT_INDEX_FILE git -C "$top" -c safe.directory='*' -c core.quotePath=false ls-files docs editors examples
  else
    (cd -- "$top" && find docs editors examples -type f ! -name '.*' ! -name '*~' | LC_ALL=C sort)
  fi
}
known=$(known) || { echo "deb.sh: git can't say which files are of the repository" >&2; exit 1; }

# pack REGEX FOLDER: puts the known files whose paths fit in a folder below /usr.
pack() {
  local path
  grep -xE "$1" <<< "$known" | while read -r path; do put "$2" "$top/$path"; done
}

# put FOLDER FILE..: files that are read, in a folder below /usr.
put() {
  local folder="$root/usr/$1"
  shift
  mkdir -p "$folder"
  install -m 644 "$@" "$folder"
}

DESTDIR="$root" bash "$top/install.sh" /usr > /dev/null || exit $?
gzip -9n "$root"/usr/share/man/man*/*
mv "$root/usr/share/zsh/site-functions" "$root/usr/share/zsh/vendor-completions"
grep -E '^editors/(vim|vscode)/' <<< "$known" | while read -r file; do put "share/kahn/$(dirname "$file")" "$top/$file"; done
doc="share/doc/kahn"
put "$doc" "$top/README.md"
pack 'docs/[^/]+\.md' "$doc/docs"
grep -oP '^editors/vim/\K.*' <<< "$known" | while read -r file; do
  for vim in vim/vimfiles nvim/site; do put "share/$vim/$(dirname "$file")" "$top/editors/vim/$file"; done
done
pack 'docs/pictures/[^/]+\.(svg|png)' "$doc/docs/pictures"
for folder in examples examples/library examples/library/tests; do pack "$folder/[^/]+" "$doc/$folder"; done
bash "$top/release/pages.sh" "$root/usr/$doc"
gzip -9n < "$top/CHANGELOG.md" > "$root/usr/$doc/NEWS.gz"
install -m 644 "$top/LICENSE" "$root/usr/$doc/copyright"
# filled FILE: a file of release/debian with what it leaves open.
filled() {
  sed "s/VERSION/$version/g; s/MAINTAINER/the maintainers of kahn <kahn@localhost>/; s/DATE/$(LC_ALL=C date -u -R -d "@$SOURCE_DATE_EPOCH")/; s/SIZE/${size:-}/" \
    "$top/release/debian/$1"
}
filled changelog | gzip -9n > "$root/usr/$doc/changelog.gz"
mkdir -p "$root/usr/share/lintian/overrides" "$root/DEBIAN"
cp "$top/release/debian/overrides" "$root/usr/share/lintian/overrides/kahn"
size=$(find "$root/usr" -type f -printf '%s\n' | awk '{ sum += $1 } END { print int((sum + 1023) / 1024) }')
(cd "$root" && find usr -type f | LC_ALL=C sort | xargs -d '\n' md5sum) > "$root/DEBIAN/md5sums"
filled control > "$root/DEBIAN/control"
find "$root" -exec touch -h -d "@$SOURCE_DATE_EPOCH" {} +
mkdir -p -- "$to"
DPKG_DEB_THREADS_MAX=1 dpkg-deb --root-owner-group -Zxz -z9 --build "$root" "$to/kahn_${version}_amd64.deb" > /dev/null
echo "$to/kahn_${version}_amd64.deb"
