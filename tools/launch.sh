# Sourced by the commands at the root; needs $root, the repository, and $me, the command's name.
# A command starts a proved program, crates/NAME/out/NAME. Where it is missing, or older than a source, it is built and proved first, which
# takes minutes from a fresh clone and is told on standard error alone. "Older" goes by the files' times; `rt` then goes by their
# contents, and proves what changed. A program's descriptors above 2 are the command's to open; they are closed where it proves.
# A program opens such a descriptor anew, as /dev/fd/N: one that stands on a file begins at its start, or writes at its end.

say() { printf '%s\n' "$me: $*" >&2; }

# the kit's folder, as rt itself finds it
kit() {
    if [ -n "${RATTLE_HOME:-}" ]; then
        echo "$RATTLE_HOME"
        return
    fi
    rt=$(command -v rt) || { say "rt, the command of the Rattle kit, is not there"; exit 2; }
    (cd "$(dirname "$(readlink -f "$rt")")/.." && pwd -P)
}

# changed NAME: a source that is newer than the program, if there is one
changed() {
    find "$root/crates.txt" "$root/crates" \( -name must-fail -o -name out \) -prune -o \
        -type f -newer "$root/crates/$1/out/$1" -print | head -n 1
}

# prove NAME: one command at a time, since two may be started together and rt keeps one folder for both. rt runs what it has built:
# on an empty input and closed descriptors, where none of the programs says anything
prove() {
    (
        ! command -v flock >/dev/null || flock 9
        status=0
        (cd "$root/crates/$1" && rt run) 2>&1 9>&- || status=$?
        echo "$status" >"$root/target/$1.status"
    ) 9>"$root/target/launch.lock" | tee "$root/target/$1.log"
}

# build NAME: proves and builds the program, if it has to be
build() {
    [ -d /dev/fd ] || { say "there is no /dev/fd, where the programs find the tables that they are handed: nothing is run"; exit 2; }
    program=$root/crates/$1/out/$1 why=''
    if [ ! -x "$program" ]; then
        why="there is no $program yet"
    else
        file=$(changed "$1")
        [ -z "$file" ] || why="${file#"$root"/} is newer than the program"
    fi
    [ -n "$why" ] || return 0
    say "$why: running rt run in crates/$1, which proves and builds it"
    mkdir -p "$root/target"
    began=$root/target/$1.began
    : >"$began"
    prove "$1" </dev/null 3>&- 4>&- | while IFS= read -r line; do
        case $line in
        'rt: running '* | 'rt: nothing has changed '*) ;;
        'rt: '*) say "${line#rt: }" ;;
        'crate '*) say "${line%%:*}" ;;
        esac
    done
    [ "$(cat "$root/target/$1.status")" = 0 ] || { say "it failed, target/$1.log says where: nothing is run"; exit 1; }
    touch -r "$began" "$program"
}

# start NAME: becomes the program. Programs are for x86-64: elsewhere the kit has an emulator, a loader and a C library
start() {
    program=$root/crates/$1/out/$1
    case $(uname -m) in
    x86_64) exec "$program" ;;
    esac
    tools=$(kit)/on/$(uname -m)/toolchain
    [ -x "$tools/bin/qemu-x86_64" ] || { say "no emulator at $tools/bin/qemu-x86_64"; exit 2; }
    exec "$tools/bin/qemu-x86_64" "$tools/lib/ld-linux-x86-64.so.2" --library-path "$tools/lib" "$program"
}
