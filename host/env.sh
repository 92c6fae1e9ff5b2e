# Shell functions for ./test and ./demo: the machine, its packages, the library, cargo's environment.
# Sourced by bash from the repository's root.
# shellcheck shell=bash

library=target/staticlib/libnode.a
narwhal=${NARWHAL_SRC:-../shared/docs/src}
# The crates that the Rust of narwhal is built with, as Debian packages them.
rust_crates=(tokio bytes serde serde-derive bincode thiserror async-recursion async-trait futures base64 log rand sha2 serde-json)

say() { printf '\n== %s\n' "$*"; }

# The library is x86-64 on every machine. An Arm machine builds the host for x86-64 too, and runs it under an emulator.
cross() { [ "$(uname -m)" = aarch64 ]; }

packages() {
    printf '%s\n' rustc cargo
    printf 'librust-%s-dev\n' "${rust_crates[@]}"
    if cross; then printf '%s\n' libstd-rust-dev:amd64 gcc-x86-64-linux-gnu qemu-user; fi
}

installed() { [[ $(dpkg-query -W -f ' ${db:Status-Status} ' "$1" 2>/dev/null) == *" installed "* ]]; }

missing_packages() {
    local package
    for package in $(packages); do
        installed "$package" || echo "$package"
    done
}

as_root() {
    if [ "$(id -u)" -eq 0 ]; then "$@"; else sudo "$@"; fi
}

install_packages() {
    local missing
    mapfile -t missing < <(missing_packages)
    if [ ${#missing[@]} -eq 0 ]; then return 0; fi
    say "installing from Debian: ${missing[*]}"
    if cross; then as_root dpkg --add-architecture amd64; fi
    as_root apt-get update -qq
    as_root env DEBIAN_FRONTEND=noninteractive apt-get install -y -qq --no-install-recommends "${missing[@]}"
}

# Debian's compiler on every machine, so that all build with the same one.
set_cargo() {
    export RUSTC=/usr/bin/rustc RUSTDOC=/usr/bin/rustdoc
    if cross; then
        export CARGO_BUILD_TARGET=x86_64-unknown-linux-gnu
        export CARGO_TARGET_X86_64_UNKNOWN_LINUX_GNU_LINKER=x86_64-linux-gnu-gcc
        export CARGO_TARGET_X86_64_UNKNOWN_LINUX_GNU_RUNNER=qemu-x86_64
    fi
}

# cargo runs within host/, where its configuration stands.
in_host() { (cd host && /usr/bin/cargo "$@"); }

have_narwhal() { [ -f "$narwhal/config/src/lib.rs" ]; }

# A folder given from outside has to hold within host/ too.
set_narwhal() {
    if [ -n "${NARWHAL_SRC:-}" ] && have_narwhal; then
        NARWHAL_SRC=$(cd "$narwhal" && pwd)
        export NARWHAL_SRC
    fi
}

need() { command -v "$1" >/dev/null || { echo "$1, $2, is not on the PATH" >&2; return 1; }; }

set_up() {
    need rt "the command of the Rattle kit"
    need dpkg-query "the command of Debian's packages"
    install_packages
    set_cargo
    set_narwhal
}

library_is_new() { [ -f "$library" ] && [ -z "$(find crates crates.txt -name out -prune -o -newer "$library" -print -quit)" ]; }

# rt leaves the archive beside the crate. The host looks for it where $library says.
build_library() {
    (cd crates/node_c && rt lib) && mkdir -p "$(dirname "$library")" && cp crates/node_c/out/libnode_c.a "$library"
}
