What README.md shows, in its order, in a fresh clone of what is committed here, by the programs of its release/, without a toolchain.
  % bare git config --global safe.directory '*' && bare git -C "$TOP" rev-parse --quiet --verify HEAD > /dev/null || { echo "there is no git, or this is no clone: nothing is tried"; false; }

The clone.
  $ command=$(sed -n 's/^\$ \(git clone ADDRESS .*\)/\1/p' "$TOP/README.md"); bare bash -c "${command/ADDRESS/--quiet \"\$ADDRESS\"}"; ls kahn/README.md
  kahn/README.md
  % (top=$PWD/kahn && is_released) || { echo "release/ isn't of the sources that are committed: nothing is tried"; false; }

README.md shows a run, a live filter, a picture and the page.
  $ for name in ./kahn ./kahn_live ./kahn_draw; do grep -q "^\\$ .*$name " kahn/README.md || echo "no $name"; done; cd kahn; ls $(grep -o 'release/[a-z]*\.html' README.md | head -n 1)
  release/kahn.html

Its commands.
  $ cd kahn; bare "$(python3 -c 'import sys; print(sys.executable)')" tests/run.py --here README.md | grep 'FAILED\|passed' | sed 's/.* passed/all passed/'
  all passed, 0 failed

The page shows a report, if there is a browser. A start has a second try.
  $ cd kahn; command -v chromium > /dev/null || exit 0; for try in 1 2; do python3 tests/web.py chromium release/kahn.html --opens > said && exit; done; cat said

What isn't of the repository isn't packed.
  $ cd kahn; command -v dpkg-deb > /dev/null || exit 0; echo secret > docs/secret.md; bare bash release/deb.sh "$PWD/../deb" > said; dpkg-deb -c ../deb/*.deb 2> /dev/null | grep secret || true
