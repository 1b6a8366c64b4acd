# shellcheck shell=bash
# Sourced with top set to the top of the repository: of which sources the page is.

# page_crates: kahn_web and each crate that it stands on, one a line.
page_crates() {
  tac "${top:?}/crates.txt" | awk -F '[: ]+' 'BEGIN { used["kahn_web"] } $1 in used { print $1; for (i = 2; i <= NF; i++) used[$i] }'
}

# page_sources: one hash of all that the page is made of, without files that editors leave.
page_sources() {
  local names
  mapfile -t names < <(page_crates)
  (
    cd "$top" || return
    for name in "${names[@]}"; do grep "^$name\b" crates.txt; done
    grep -m 1 '^## [0-9]' CHANGELOG.md
    find "${names[@]/#/crates/}" web examples \( -name out -o -path examples/library \) -prune -o -type f ! -name '[.#]*' ! -name '*~' \
      \( -path '*/src/*' -o -path '*/specs/*' -o -path '*/proofs/*' -o -path 'web/*' -o -name '*.kahn' -o -name '*.input' \) -print \
      | LC_ALL=C sort | xargs sha256sum HANDLES
  ) | sha256sum | cut -d ' ' -f 1
}

# page_lines FOLDER: what page.sha256 says of the page in the folder: its hash, and that of its sources.
page_lines() {
  echo "$(sha256sum < "$1/kahn.html" | cut -d ' ' -f 1)  kahn.html"
  echo "$(page_sources)  sources"
}

# is_page_released: whether the page in release/ is of the sources that stand here.
is_page_released() {
  [ -e "$top/release/kahn.html" ] && [ -e "$top/release/page.sha256" ] && [ "$(page_lines "$top/release")" = "$(cat "$top/release/page.sha256")" ]
}
