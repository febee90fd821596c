# What the comparisons with the second implementation share. Sourced, at the top of the repository, after tests/lib.sh,
# with seed set.

export CARGO_TARGET_DIR=$PWD/target/cargo

cargo_host() { # cargo_host COMMAND FLAG..: in host/rust
    local command=$1
    shift
    cargo "$command" --manifest-path host/rust/Cargo.toml --release --offline --locked -j2 "$@"
}

build_linked() { # build_linked PROGRAM: with the archives
    LOARGWEN_LIB=$PWD/$staticlib cargo_host build --features archive --bin "$1"
}

build_compare() { # sets reach, the flags by which compare reaches the archives: none, since they are linked
    build_linked compare
    reach=()
}

compare() { # compare STEPS FLAG..
    local steps=$1
    shift
    "$CARGO_TARGET_DIR/release/compare" "$seed" "$steps" "${reach[@]}" "$@"
}

build_files() {
    cargo_host build --bin files
}

compare_files() { # compare_files BENCH COUNT FLAG..: a bench on random and damaged files
    local bench=$1 count=$2
    shift 2
    "$CARGO_TARGET_DIR/release/files" "$bench" "$seed" "$count" "$@"
}
