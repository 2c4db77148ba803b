# What .ci/run, oracle/run and bench/run share. They source this file from the repository's root.

# fail MESSAGE [STATUS]
fail() {
    echo "$0: $1" >&2
    exit "${2:-2}"
}

# from_there FOLDER PATH: the path as one who stands in the folder means it, in full.
from_there() {
    (cd -- "$1" && realpath -m -- "$2")
}

# side_by_side COMMAND.. [-- COMMAND..]..: runs the commands at the same time. What each writes is
# printed whole, in the order in which they stand; the status is that of the first one that failed.
side_by_side() {
    local folder word place command=() started=() status=0 one
    folder=$(mktemp -d)
    for word in "$@" --; do
        if [ "$word" != -- ]; then
            command+=("$word")
            continue
        fi
        "${command[@]}" >"$folder/${#started[@]}" 2>&1 &
        started+=($!)
        command=()
    done
    for place in "${!started[@]}"; do
        one=0
        wait "${started[place]}" || one=$?
        cat "$folder/$place"
        [ "$status" -ne 0 ] || status=$one
    done
    rm -r "$folder"
    return "$status"
}

# rustc_will_do: the published Rust and the standard library's whole root want 1.84 or later.
rustc_will_do() {
    local minor
    minor=$(rustc --version 2>/dev/null | sed -n 's/^rustc 1\.\([0-9]*\)\..*/\1/p')
    [ "${minor:-0}" -ge 84 ]
}

need_rustc() {
    command -v rustc >/dev/null ||
        fail "rustc is not installed (Debian 12: apt install rustc-web; Debian 13: apt install rustc)"
    command -v cc >/dev/null || fail "there is no C compiler to link with (Debian: apt install gcc)"
    command -v nm >/dev/null || fail "nm is not installed (Debian: apt install binutils)"
    rustc_will_do || fail "rustc 1.84 or later is needed; this is $(rustc --version)"
}

# build NAME: proves that crate and all below it; of a static library it writes target/staticlib/libNAME.a, of a
# program target/bin/NAME. No two of these go side by side: each waits for the crates that the other is at.
build() {
    tools/build "$1" || fail "$1 was not built" 1
}

# has_texts FOLDER: whether the published texts are there, each under either name that oracle/slice takes.
has_texts() {
    local name
    for name in compare_floats core/units core/simulation_time core/external_conditions; do
        [ -f "$1/src/$name.rs" ] || [ -f "$1/src/$name.rs.txt" ] || return 1
    done
}

# published_items FOLDER: cuts them out of the published texts, and says where they are to rustc.
published_items() {
    command -v python3 >/dev/null || fail "python3 is not installed (Debian: apt install python3)"
    has_texts "$1" || fail "the published texts are not in $1 (name their folder by --source DIR)"
    python3 oracle/slice target/oracle/published_items.rs "$1" || exit 1
    export ORACLE_PUBLISHED_ITEMS=$PWD/target/oracle/published_items.rs
}

# need_functions ARCHIVE SOURCE PREFIX: the functions that the source declares under that prefix, each
# by name.
need_functions() {
    [ -f "$1" ] || fail "no library $1"
    local missing
    missing=$(comm -23 <(sed -n "s/^    fn \\($3_[a-z0-9_]*\\)(.*/\\1/p" "$2" | sort) \
        <(nm -g --defined-only "$1" 2>/dev/null | sed -n 's/.* T //p' | sort))
    [ -z "$missing" ] || fail "the library $1 lacks these functions:"$'\n'"$missing" 1
}

need_probes() {
    need_functions "$1" oracle/probes.rs probe
}

need_pilgartze() {
    need_functions "$1" oracle/pilgartze.rs pilgartze
}

# compile SOURCE PROGRAM ARCHIVE: x86-64 without later extensions, as Rattle compiles, so that no
# multiply and add are fused on this side either.
compile() {
    mkdir -p "$(dirname "$2")"
    rustc --edition 2021 -O -C target-cpu=x86-64 -C link-arg="$3" -o "$2" "$1" ||
        fail "$1 does not compile" 1
}
