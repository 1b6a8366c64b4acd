#!/usr/bin/env bash
# Makes README.md and docs/ in a folder the pages of an installed program: they name only what is installed, and those whose commands
# use examples begin with a copy of these. In a page, what only holds in a clone is between the lines <!--clone--> and <!--end-->.
#
#   pages.sh FOLDER      with README.md, docs and examples
set -eu
top=$(CDPATH='' cd -- "$(dirname -- "${BASH_SOURCE[0]}")/.." && pwd)
case ${1:-} in '' | -*) sed -n '2,/^set/s/^# \{0,1\}//p' "${BASH_SOURCE[0]}" >&2; exit 2 ;; esac
cd -- "$1"
# These are about the sources and their proof.
rm -f docs/contract.md docs/meaning.md docs/reading.md
# shellcheck disable=SC2016
sed -i '
  /^<!--clone-->$/,/^<!--end-->$/d
  /^| .*\(CONTRIBUTING\.md\|bench\/\|docs\/contract\.md\|install\.sh\|deb\.sh\)/d
  s,^\$ git clone ADDRESS .*,$ cp -r /usr/share/doc/kahn/examples .,
  s,\./kahn,kahn,g
  s,release/kahn\.html,/usr/share/kahn/kahn.html,g
  s,`editors/,`/usr/share/kahn/editors/,g
  s,(LICENSE),(copyright),; s,CHANGELOG\.md,NEWS.gz,
' README.md docs/*.md
# The mistakes that pages show become examples.
{ grep -oh 'tests/\(mistakes\|warnings\)/[a-z/-]*\.\(kahn\|input\)' docs/*.md || true; } | sort -u | while read -r file; do
  install -D -m 644 "$top/$file" "examples/${file#tests/}"
done
sed -i 's,tests/\(mistakes\|warnings\),examples/\1,g' docs/*.md
# shellcheck disable=SC2016
{ grep -l '^\$ .*examples/' docs/*.md || true; } | while read -r page; do
  sed -i '1a \\nRun the commands in a folder of your own, with a copy of the examples:\n\n```\n$ cp -r /usr/share/doc/kahn/examples .\n```
    s/, at the top of the repository//' "$page"
done
