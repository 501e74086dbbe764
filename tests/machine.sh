# Sourced by the scripts that build C against the proved archive; needs $root, the repository.
# tools/archive writes an archive for x86-64. On x86-64 C is built with plain gcc and run as it is; on aarch64 it is built with
# Debian's gcc-x86-64-linux-gnu (and its C library, libc6-dev-amd64-cross), linked -static, and run under the kit's own emulator, where the kit has one (today's hasn't).

archive=$root/target/staticlib/libpanel.a
flags="-std=c11 -Wall -Wextra -Werror"

case $(uname -m) in
x86_64)
    CC=${CC:-gcc} NM=${NM:-nm} emulator='' static=''
    ;;
aarch64)
    CC=${CC:-x86_64-linux-gnu-gcc} NM=${NM:-x86_64-linux-gnu-nm} static=-static
    kit=$(dirname "$(dirname "$(rt doc)")")
    emulator=$kit/on/aarch64/toolchain/bin/qemu-x86_64
    [ -x "$emulator" ] || { echo "no emulator at $emulator" >&2; exit 2; }
    ;;
*)
    echo "x86-64 or aarch64 is needed; this is $(uname -m)" >&2
    exit 2
    ;;
esac
command -v "$CC" >/dev/null || { echo "$CC is missing (Debian: gcc, or gcc-x86-64-linux-gnu and libc6-dev-amd64-cross on aarch64)" >&2; exit 2; }

# say WORDS..: what is being done, on standard error
say() { echo "$*" >&2; }

# newer_sources FILE: what of crates/, and crates.txt, is newer, folders too, from which something may have gone; what rt keeps in out/,
# and a crate's own folder, in which out/ comes and goes, don't count
newer_sources() {
    find "$root/crates" "$root/crates.txt" -name out -prune -o \( -type f -o -path "$root/crates/*/*" \) -newer "$1" -print
}

# make_archive: proves crate panel, with what it stands on, and writes the archive, unless it is newer than all of crates/
make_archive() {
    if [ -f "$archive" ] && [ -z "$(newer_sources "$archive")" ]; then return; fi
    say "building $archive (tools/archive panel)"
    said=$("$root/tools/archive" panel 2>&1) || { printf '%s\n' "$said" >&2; exit 1; }
}

# compile OUTPUT ARGS..: a program, with the archive after its sources
compile() {
    output=$1
    shift
    say "building $output"
    mkdir -p "$(dirname "$output")"
    # shellcheck disable=SC2086
    $CC $flags -I"$root/include" "$@" "$archive" $static -o "$output"
}

# run PROGRAM ARGS..
run() { ${emulator:+"$emulator"} "$@"; }
