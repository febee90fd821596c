# What the C and Rust tests share: the archives and the bench, which rt builds, the C programs that are linked with
# archives, and the count of checks. All of it is x86-64 code, since rt makes no other. Sourced, at the top of the
# repository; where checks are counted, part is the name of the tests.

archives=(loargwen step_records word_face)
headers=include
staticlib=target/staticlib
bench=crates/bench/out/bench
built=target/tests
warnings=(-Wall -Wextra -Werror)
checks=0

passes() { # passes WHAT: one check more; a script ends where one fails
    checks=$((checks + 1))
    echo "$part: $1"
}

say_count() { # say_count ALL: the last line, which the gate takes over, if all checks that there are were made
    [ "$checks" -eq "$1" ] || {
        echo "$part: $checks checks were made, and $1 are called for"
        return 1
    }
    echo "$checks passed, 0 failed"
}

must_end() { # must_end STATUS WHAT COMMAND..: by this exit status and no other
    local want=$1 what=$2 status=0
    shift 2
    "$@" || status=$?
    [ "$status" -eq "$want" ] || {
        echo "$part: $what: exit status $status, not $want"
        return 1
    }
    passes "$what: exit status $want, as it must be"
}

have() { # have PROGRAM..: whether all of them are installed
    [ "$(command -v "$@" | wc -l)" -eq $# ]
}

install_packages() { # install_packages PACKAGE..
    { apt-get update -q && DEBIAN_FRONTEND=noninteractive apt-get install -qy --no-install-recommends "$@"; } >&2
}

is_new() { # is_new FILE: whether it is there and nothing that crates are made from is newer
    [ -f "$1" ] && [ -z "$(find crates.txt crates/*/{src,specs,proofs} -newer "$1")" ]
}

make_archive() { # make_archive NAME: of the crate NAME, or NAME_c where NAME is a library, and that the C face over it
    local crate=$1
    [ ! -d "crates/$1_c" ] || crate=$1_c
    (cd "crates/$crate" && rt lib)
    mkdir -p "$staticlib"
    cp "crates/$crate/out/lib$crate.a" "$staticlib/lib$1.a"
}

build_archive() { # build_archive NAME: $staticlib/libNAME.a
    is_new "$staticlib/lib$1.a" || make_archive "$1"
}

build_archives() {
    local name
    for name in "${archives[@]}"; do build_archive "$name"; done
}

build_bench() { # $bench, which rt leaves there once it has proved and run it
    is_new "$bench" || (cd crates/bench && rt run <stdin >/dev/null)
}

link_c() { # link_c SOURCE PROGRAM NAME..: compiles a C program with $headers and archives
    local source=$1 program=$2
    shift 2
    have cc || install_packages gcc libc6-dev
    mkdir -p "$built"
    cc -O2 -g "${warnings[@]}" -I "$headers" "$source" -L "$staticlib" "${@/#/-l}" -o "$program"
}

build_server() {
    link_c tests/c/server.c "$built/server" "${archives[@]}"
}
