The Debian package.
  % command -v dpkg-deb > /dev/null || { echo "no dpkg: the package is not made"; false; }
  % is_page_released || { echo "release/kahn.html isn't of these sources, \`bash web/build.sh\` makes it: the package is not made"; false; }
  % find_built kahn 2> /dev/null || { echo "no programs of these sources: the package is not made"; false; }

Two are the same bytes.
  $ mkdir first second; cmp "$(bash "$TOP/release/deb.sh" first)" "$(bash "$TOP/release/deb.sh" second)"

It goes into an empty root.
  $ mkdir -p root/var/lib/dpkg/{info,updates}; touch root/var/lib/dpkg/{status,available}; in_root --install first/*.deb

The programs have its version.
  $ for name in "${programs[@]}"; do root/usr/bin/$name --version; done | sed "s/ $(dpkg-deb -f first/*.deb Version)$/ is/" | xargs
  kahn is kahn_live is kahn_draw is kahn_explain is

Manual pages.
  $ for name in "${programs[@]}"; do manual $name 1 OPTIONS; done; manual kahn 7 STATEMENTS; for name in kahn_page kahn_test kahn_build; do manual $name 1 DESCRIPTION; done
  3
  3
  3
  3
  3
  3
  3
  3

An example, the page, completions.
  $ PATH="$PWD/root/usr/bin" kahn root/usr/share/doc/kahn/examples/count.kahn | diff - "$TOP/examples/count.report"
  $ cmp "$(root/usr/bin/kahn_page)" "$TOP/release/kahn.html"
  $ completed kahn --wor; completed kahn_live --plai; completed kahn_draw --inp; completed kahn_test --ju; completed kahn_build --se
  --workers
  --plain
  --input
  --junit
  --set

Lintian has nothing against it, if that is there; no file is anybody's to write.
  $ ! command -v lintian > /dev/null || lintian --allow-root --fail-on none -E first/*.deb 2> /dev/null | grep '^[EW]:' || true
  $ find root/usr -perm /022 -not -type l | head -n 3

Its pages name only what it installs, and their commands print what they show.
  $ python3 pages.py root/usr
  all passed

Nothing is left.
  $ in_root --purge kahn; find root -mindepth 1 -not -path 'root/var*'
