# What compare/run and compare/sanitize share: where things are, and what is missing.
# Sourced with the variable `here`, the folder of this file. Goes over to that folder.

fail() {
    printf 'compare: %s\n' "$*" >&2
    exit 2
}

# need PROGRAM PACKAGE: installs Debian's package where the program is missing.
need() {
    command -v "$1" >/dev/null 2>&1 && return
    command -v apt-get >/dev/null 2>&1 || fail "$1 is missing, and there is no apt-get to install $2."
    sudo=
    [ "$(id -u)" = 0 ] || sudo=sudo
    $sudo apt-get update >&2 || fail "$1 is missing, and the list of packages can't be had."
    $sudo apt-get install -y --no-install-recommends "$2" >&2 || fail "$1 is missing, and $2 can't be installed."
    command -v "$1" >/dev/null 2>&1 || fail "$1 is still missing after $2 was installed."
}

# from_here PATH: an absolute path; a relative one counts from this folder.
from_here() {
    case $1 in
    /*) printf '%s\n' "$1" ;;
    *) printf '%s/%s\n' "$here" "$1" ;;
    esac
}

cd "$here"
DIGRIBBON_ORIGINAL=$(from_here "${DIGRIBBON_ORIGINAL:-../../shared/docs/src}")
DIGRIBBON_ARCHIVE=$(from_here "${DIGRIBBON_ARCHIVE:-../target/staticlib/libdigribbon.a}")
export DIGRIBBON_ORIGINAL DIGRIBBON_ARCHIVE

command -v cargo >/dev/null 2>&1 || fail "cargo is missing: the comparison builds the original with Rust."
[ -f "$DIGRIBBON_ORIGINAL/crates/luars/src/stdlib/string/pack.rs" ] ||
    fail "the original is missing: $DIGRIBBON_ORIGINAL has no crates/luars/src/stdlib/string/pack.rs. Name its folder with --original or DIGRIBBON_ORIGINAL."
[ -f "$DIGRIBBON_ARCHIVE" ] ||
    fail "our archive is missing: there is no $DIGRIBBON_ARCHIVE. Run compare/archive, or name it with --archive or DIGRIBBON_ARCHIVE."
