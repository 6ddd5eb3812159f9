# shellcheck shell=sh disable=SC2034
# Sourced by scripts that stand in the root of the repository. The product is x86-64 code; this says how such code is built
# and run here, on x86-64 or on Arm:
#   RUSTC    the Rust compiler, with what makes a static x86-64 program of it
#   RUN      words that start such a program: none on x86-64, an emulator on Arm
#   LAUNCH   words that start a program of target/bin, which is linked dynamically
# `need PACKAGE THING` installs a Debian package for a command or file that is not there, where that is allowed.

need() {
    if command -v "$2" >/dev/null || [ -e "$2" ]; then return; fi
    if [ "$(id -u)" != 0 ] || ! command -v apt-get >/dev/null; then
        echo "$2 is missing: install the Debian package $1" >&2
        exit 2
    fi
    { apt-get update -qq && DEBIAN_FRONTEND=noninteractive apt-get install -y -qq --no-install-recommends "$1"; } >/dev/null 2>&1 ||
        { echo "$2 is missing, and the Debian package $1 could not be installed" >&2; exit 2; }
}

# The x86-64 standard library of Debian's Rust compiler, unpacked beside the compiler's own and not installed.
fetch_x86_std() {
    rust_package=rustc-web std_package=libstd-rust-web-dev
    dpkg-query -W $rust_package >/dev/null 2>&1 || rust_package=rustc std_package=libstd-rust-dev
    rust_version=$(dpkg-query -W -f '${Version}' $rust_package)
    sysroot=$PWD/target/x86/rust-$rust_version
    [ -e "$sysroot/lib/rustlib/$x86_target" ] && return
    lists=$PWD/target/x86/apt
    mkdir -p "$lists/lists/partial" "$lists/archives/partial" "$sysroot/lib/rustlib"
    other="-qq -o Dir::State::Lists=$lists/lists -o Dir::Cache=$lists -o Dir::State::status=/dev/null -o APT::Architecture=amd64
        -o APT::Architectures::=amd64 -o Acquire::Languages=none -o APT::Sandbox::User=root"
    # shellcheck disable=SC2086
    (apt-get $other update && cd "$lists" && apt-get $other download "$std_package=$rust_version") >&2 || exit 2
    dpkg-deb -x "$lists"/*.deb "$sysroot/deb"
    ln -s "$sysroot/deb/usr/lib/rustlib/$x86_target" "$sysroot/lib/rustlib/$x86_target"
    # the cross libm.a names a path of another machine; the archive that it means stands beside it
    mkdir -p "$sysroot/native"
    for archive in /usr/x86_64-linux-gnu/lib/libm-*.a; do ln -sf "$archive" "$sysroot/native/libm.a"; done
    rm -rf "$lists"
}

x86_target=x86_64-unknown-linux-gnu
static="--edition 2021 -C opt-level=3 -C panic=abort -C target-feature=+crt-static -C relocation-model=static"
case $(uname -m) in
x86_64)
    need rustc rustc
    need gcc gcc
    RUSTC="rustc $static" RUN='' LAUNCH=''
    ;;
aarch64)
    need rustc-web /usr/bin/rustc
    need gcc-x86-64-linux-gnu x86_64-linux-gnu-gcc
    need libc6-dev-amd64-cross /usr/x86_64-linux-gnu/lib/libc.a
    need qemu-user qemu-x86_64
    fetch_x86_std
    RUSTC="/usr/bin/rustc --sysroot $sysroot --target $x86_target -C linker=x86_64-linux-gnu-gcc -L native=$sysroot/native $static"
    RUN=$(command -v qemu-x86_64)
    LAUNCH=$RUN
    ;;
*)
    echo "no way to build x86-64 code is known on $(uname -m)" >&2
    exit 2
    ;;
esac
