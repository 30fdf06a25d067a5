#!/bin/sh
# readme.sh VERSION: prints the README of a release: that of the repository, with install.md in place of its section
# Install, and with commands by their names alone, as they are on the path there.
set -eu
cd "$(dirname "$0")/.."
awk -v version="$1" '
    NR == 1 { $0 = $0 " " version }
    /^## / { is_replaced = 0 }
    $0 == "## Install" { is_replaced = 1; while ((getline line <"release/install.md") > 0) { print line; found = 1 } }
    !is_replaced { gsub(/bin\//, ""); print }
    END { exit !found }
' README.md || { echo "README.md has no section Install, or there is no release/install.md" >&2; exit 1; }
