#!/bin/sh
# VERSION is the one place of the version: the header, the packages, their lock files and NEWS.md must say the same.
# Prints a line for each that says another and exits 1, or prints nothing.
set -u
cd "$(dirname "$0")/.." || exit 2

version=$(cat VERSION) || exit 2
case $version in
'' | *[!0-9.]* | *.*.*.* | .* | *. | *..*) echo "VERSION is '$version', which is not three numbers"; exit 1 ;;
*.*.*) ;;
*) echo "VERSION is '$version', which is not three numbers"; exit 1 ;;
esac
failed=0

same() { # FILE FOUND DUE
    [ "$2" = "$3" ] && return
    echo "$1 says '$2', where '$3' is due: VERSION is $version"
    failed=1
}

# The version in a manifest's first part, [package].
package_version() { # FILE
    sed -n '/^\[package\]/,/^$/s/^version = "\(.*\)"$/\1/p' "$1"
}

# The versions that a lock file has for this repository's packages: those without a source.
locked_versions() { # FILE
    awk '/^\[\[package\]\]/ { version = "" } /^version = "/ { version = $3 } /^source = / { version = "" }
        /^$/ && version { print version; version = "" } END { if (version) print version }' "$1" | tr -d '"' | sort -u
}

for package in reference bench examples/rust; do
    same "$package/Cargo.toml" "$(package_version "$package/Cargo.toml")" "$version"
    same "$package/Cargo.lock" "$(locked_versions "$package/Cargo.lock")" "$version"
done

# The newest heading of NEWS.md.
same NEWS.md "$(sed -n 's/^## //p' NEWS.md | head -n 1)" "$version"

# The header's macro has a byte for each of the three numbers.
macro=$(sed -n 's/^#define NEKBROD_VERSION[A-Z_]* *//p' include/nekbrod.h)
if [ -n "$macro" ]; then
    IFS=. read -r major minor patch <VERSION
    same include/nekbrod.h "$macro" "$(printf '0x%02x%02x%02xu' "$major" "$minor" "$patch")"
fi
exit "$failed"
