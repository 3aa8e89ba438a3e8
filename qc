#!/bin/sh
# Runs qc with the given words in the caller's folder, and ends with its status, or with 1 where there is no program.
#
#     ./qc WORDS ..
#     ./qc --prove
#
# It takes the proved program where that is built from the code as it stands, else one that is compiled from the same
# code with checks and not proved, which the first call makes. --prove proves and builds the proved one. Interrupted
# while it makes either, it leaves nothing running.

here=$(CDPATH='' cd -- "$(dirname -- "$0")" && pwd) || exit 1
proved=$here/crates/qc_cli/out/qc_cli
checked=$here/out/checked/qc_cli

# Runs one of the scripts that make a program, and gives its status.
make_by() {
    trap 'kill "$!" 2>/dev/null; wait "$!"; exit 1' HUP INT TERM
    "$here/package/$1" &
    wait "$!"
    set -- "$?"
    trap - HUP INT TERM
    return "$1"
}

# How many minutes that takes from nothing on four processors, by what each crate took on a slow machine. Crates wait for
# others: the whole took 45 minutes where these come to 117.
minutes_to_prove() {
    awk '{ all += $2 } END { printf "%d", all / 60 / 2.6 }' "$here/package/seconds"
}

# Proves and builds the program.
prove() {
    echo "qc: proving and building the program, which takes some $(minutes_to_prove) minutes at first on four slow processors" >&2
    make_by build-program || { echo 'qc: the program was not built; the lines above say why' >&2 && exit 1; }
}

if [ "$#" = 1 ] && [ "$1" = --prove ]; then
    "$here/package/is-built" || prove
    echo "qc: the program is proved on this machine and built: crates/qc_cli/out/qc_cli" >&2
    exit 0
fi

! "$here/package/is-built" --code || exec "$proved" "$@"

if ! "$here/package/is-built" --checked; then
    if ! command -v rt >/dev/null 2>&1; then
        echo 'qc: the program must be built, and the command rt of the Rattle toolchain is not on PATH' >&2
        exit 1
    fi
    echo 'qc: compiling the program from its sources, which takes two to three minutes at first' >&2
    make_by try-program
    case $? in
        0)
            echo "qc: this program is compiled with checks from the sources, and not proved on this machine;" \
                "./qc --prove proves and builds the proved one, in some $(minutes_to_prove) minutes on four slow processors" >&2
            ;;
        3)
            echo 'qc: so the program is proved and built instead' >&2
            prove
            exec "$proved" "$@"
            ;;
        *)
            echo 'qc: the program was not built; the lines above say why' >&2
            exit 1
            ;;
    esac
fi
case $* in
    --version | -V) echo 'qc: of the sources; this program is compiled from them with checks and not proved on this machine' >&2 ;;
esac
exec "$checked" "$@"
