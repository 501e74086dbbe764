# Sourced by the tests of ./compare; needs $root, the repository, $here, this folder, and $out, a folder to write to.
# A golden pair is a file golden/NAME.case: a line on what it shows, then sections behind lines `== SECTION`:
#   first      drill lines that build the first table; what stands behind two spaces is a remark
#   then       lines that go on from it to the second; or else
#   second     lines that build the second by itself
#   edition1   which of the tables are moved down: `first second`, or one of them
#   names      a file of names; options has to name it
#   options    of ./compare
#   columns    the width, where it isn't left to ./compare
#   status, out   what is expected
# Builds down, comparer (the second reading) and gen into $out.
# shellcheck shell=sh

# shellcheck source=tests/machine.sh
. "$root/tests/machine.sh"
unset COLUMNS NO_COLOR
told() { printf '%-10s %s\n' "$1" "$2"; }
fail() { echo "$*" >&2; exit 1; }

# host OUTPUT SOURCES..: a program for this machine
host() {
    output=$1
    shift
    # shellcheck disable=SC2086
    ${HOST_CC:-gcc} $flags -O2 -I"$root/second" -I"$here" "$@" "$root/second/second.c" -o "$out/$output"
}

# section CASE NAME: the lines of a case behind `== NAME`
section() { awk -v name="$2" '/^== / { on = $2 == name; next } on' "$here/golden/$1.case"; }
has() { grep -q "^== $2" "$here/golden/$1.case"; }

# table CASE SECTION ARGS..: the table that these lines leave; each of them has to be accepted
table() {
    of=$1 lines=$2
    shift 2
    section "$of" "$lines" | sed 's/  .*//' >"$out/lines"
    "$root/drill" "$@" "$out/lines" >"$out/replies"
    ! grep -qv '^0 ' "$out/replies" || fail "$of: a line of $lines is refused"
}

# lay CASE: first.table, second.table and names, as the case has them
lay() {
    rm -f "$out/names"
    table "$1" first --leave "$out/first.table"
    if has "$1" second; then
        table "$1" second --leave "$out/second.table"
    else
        table "$1" 'then' --from "$out/first.table" --leave "$out/second.table"
    fi
    for which in $(section "$1" edition1); do
        "$out/down" <"$out/$which.table" >"$out/moved" || fail "$1: the $which table can't be moved down"
        mv "$out/moved" "$out/$which.table"
    done
    if has "$1" names; then section "$1" names >"$out/names"; fi
}

host down "$root/tests/listing/down.c"
host comparer "$here/comparer.c" "$here/rows.c"
host gen "$root/second/gen_main.c" "$root/second/gen.c" "$root/second/expect.c"
