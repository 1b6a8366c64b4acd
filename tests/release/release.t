The programs of release/ are those that are built here, and run in a copy of the repository in which nothing was built.
  % is_released || { echo "release/ isn't of these sources: its programs are not compared"; false; }

Byte for byte.
  $ for name in "${programs[@]}"; do unpacked "$name" | cmp - "$(command -v "$name")"; done

Twice.
  $ mkdir copy; tar -C "$TOP" --exclude=./.git --exclude=out -cf - . | tar -C copy -xf -; cd copy
  > bare ./kahn examples/count.kahn | diff - examples/count.report; bare ./kahn examples/count.kahn | diff - examples/count.report

An installation, with what it says that it installs.
  $ cd copy; bare bash install.sh "$PWD/../prefix" > /dev/null; bare ../prefix/bin/kahn examples/count.kahn | diff - examples/count.report
  $ diff <(cd prefix && find . -type f | sort) <({ printf './bin/%s\n' "${programs[@]}"; pages | sed 's/.* /.\//'; echo ./share/kahn/installed.sha256; } | sort)

An installation under DESTDIR.
  $ cd copy; bare DESTDIR="$PWD/root" PREFIX=/opt/kahn bash install.sh > /dev/null; bare root/opt/kahn/bin/kahn examples/count.kahn | diff - examples/count.report

The help of install.sh.
  $ bare bash copy/install.sh --help | sed -n 's/^  install/install/p'
  install.sh [--uninstall] [PREFIX]      into PREFIX/bin, or from there

Without xz, where python3 unpacks.
  $ mkdir bin; for tool in bash cat chmod cut dirname basename env find grep mkdir mktemp mv readlink rm sha256sum sort xargs; do ln -s "$(command -v $tool)" bin; done
  > ln -s "$(python3 -c 'import sys; print(sys.executable)')" bin/python3
  > rm -r copy/release/out; env -i PATH="$PWD/bin" HOME="$home" copy/kahn copy/examples/count.kahn 2>&1 | diff - copy/examples/count.report

In a folder that can't be written, by a user who isn't root.
  $ rm -rf copy/release/out "$home/.cache"; chmod -R a-w,a+rX copy; chmod 777 "$home"; user=()
  > [ "$(id -u)" != 0 ] || user=(setpriv --reuid=65534 --regid=65534 --clear-groups --inh-caps=-all --bounding-set=-all)
  > bare "${user[@]}" copy/kahn copy/examples/count.kahn | diff - copy/examples/count.report
  > find "$home/.cache" -name kahn -type f | wc -l; chmod -R u+w copy
  1

Other sources, of which nothing is built without the toolchain.
  $ cd copy; echo "# changed" >> crates.txt; bare ./kahn examples/count.kahn
  kahn: these sources have no release: bash release/build.sh proves and builds the programs; in a whole clone, git checkout $(git log -1 --format=%h release/sources.sha256) has some
  [5]
  $ cd copy; bare bash release/build.sh
  build.sh: the Rattle toolchain (rt) is not on the path
  [5]
