# shellcheck shell=sh disable=SC2034
# Sourced by scripts that stand in the root of the repository: builds the crates of tests/ into target/tests.
. tests/x86.sh
out=target/tests
mkdir -p $out

# crate NAME FILE OUT WORDS..: a Rust library, rebuilt each time (a second or two)
crate() {
    crate_name=$1 crate_file=$2 crate_folder=$3
    shift 3
    # shellcheck disable=SC2086
    $RUSTC --crate-type rlib --crate-name "$crate_name" -o "$crate_folder/lib$crate_name.rlib" "$@" "$crate_file"
}

build_harness() {
    crate reference tests/reference/lib.rs $out
    crate harness tests/harness/lib.rs $out --extern reference=$out/libreference.rlib
}

# build_standin SOURCES FOLDER: the reference of these sources behind the C boundary. Its crate has another name than the
# right one, since both are linked into one program.
build_standin() {
    mkdir -p "$2"
    crate candidate "$1/lib.rs" "$2"
    crate standin "${STANDIN_SOURCE:-tests/standin/lib.rs}" "$2" --extern reference="$2/libcandidate.rlib"
}

# build_efficient FOLDER: the efficient finder of bench/ behind the C boundary
build_efficient() {
    mkdir -p "$1"
    crate efficient bench/efficient/lib.rs "$1"
    crate standin bench/efficient/boundary.rs "$1" --extern efficient="$1/libefficient.rlib"
}

# link_with_standin FOLDER PROGRAM WORDS..: with --cfg judging it stands in for the programs `grounds` and `verify` too
link_with_standin() {
    standin_folder=$1 standin_program=$2
    shift 2
    # shellcheck disable=SC2086
    $RUSTC --cfg standin "$@" -L $out -L "$standin_folder" --extern harness=$out/libharness.rlib \
        --extern standin="$standin_folder/libstandin.rlib" -o "$standin_program" tests/harness/main.rs
}

link_with_library() {
    # shellcheck disable=SC2086
    $RUSTC -L $out --extern harness=$out/libharness.rlib -C link-arg="$1" -o "$2" tests/harness/main.rs
}
