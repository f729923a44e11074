# What `./test` and `./show` need of Rust: the source of spline.rs, a compiler, and the programs of host/. Sourced from the repository's top.
#   rust_ready        finds both, installing a compiler where there is none; says in $rust_missing what cannot be had
#   rust_build ..     compiles host/, or with words for cargo a part of it
#   rust_test ..      runs tests of host/
#   rust_run NAME ..  runs a program of host/
# Everything is compiled for x86-64, since the static libraries are; on another processor it runs under an emulator.

rust_target=x86_64-unknown-linux-gnu
rust_missing=''
rust_linker='' rust_runner=''
SPLINE_SRC=${SPLINE_SRC:-../shared/docs/src}
case $SPLINE_SRC in /*) ;; *) SPLINE_SRC=$PWD/$SPLINE_SRC ;; esac
export SPLINE_SRC

if [ "$(uname -m)" != x86_64 ]; then
    rust_linker=x86_64-linux-gnu-gcc
    rust_runner=qemu-x86_64
    export CARGO_TARGET_X86_64_UNKNOWN_LINUX_GNU_RUNNER="$rust_runner"
fi

# Whether this cargo and rustc make programs that run here, know the Rust that host/ is written in, and have the float sum of the
# scope's oracle, which starts from minus zero (that of 1.85 does, that of 1.78 does not): tried, not guessed.
try_compiler() { # CARGO RUSTC
    command -v "$1" >/dev/null 2>&1 && command -v "$2" >/dev/null 2>&1 || return 1
    trial=$(mktemp -d) || return 1
    echo 'fn main() { let Some(sum) = Some([0f32; 0].iter().sum::<f32>()) else { return }; assert!(sum.is_sign_negative()) }' >"$trial/trial.rs"
    # shellcheck disable=SC2086
    "$2" --edition 2021 --target "$rust_target" ${rust_linker:+-C linker=$rust_linker} -o "$trial/trial" "$trial/trial.rs" 2>/dev/null && $rust_runner "$trial/trial" 2>/dev/null
    tried=$?
    rm -rf "$trial"
    [ "$tried" -eq 0 ] && CARGO=$1 RUSTC=$2
}

find_compiler() { try_compiler cargo rustc || try_compiler /usr/bin/cargo /usr/bin/rustc; }

packages() {
    export DEBIAN_FRONTEND=noninteractive
    fetch='apt-get -y -o Acquire::Retries=3 -o Acquire::http::Timeout=30'
    [ -z "$rust_linker" ] || dpkg --add-architecture amd64 || return 1
    $fetch update || return 1
    if [ -n "$rust_linker" ]; then
        $fetch install --no-install-recommends rustc-web cargo-web libstd-rust-web-dev:amd64 gcc-x86-64-linux-gnu libc6-dev-amd64-cross qemu-user
    else
        $fetch install --no-install-recommends rustc-web cargo-web || $fetch install --no-install-recommends rustc cargo
    fi
}

# A network may fail for a while: four tries, with a longer pause after each. What is wrong is said in $rust_missing.
install_compiler() {
    rust_missing="no Rust compiler for $rust_target that the oracle can use is here, and only root can install Debian's: type apt-get install rustc-web cargo-web as root"
    [ "$(id -u)" = 0 ] && command -v apt-get >/dev/null 2>&1 || return 1
    for pause in 5 15 45 0; do
        packages >host/target/packages.log 2>&1 && return 0
        sleep "$pause"
    done
    rust_missing="no Rust compiler for $rust_target that the oracle can use is here, and Debian's packages could not be installed; host/target/packages.log tells why"
    if grep -qE 'Temporary failure|Could not (resolve|connect)|Unable to connect|Failed to fetch' host/target/packages.log; then
        rust_missing="no Rust compiler for $rust_target that the oracle can use is here, and Debian's packages cannot be fetched: there is no network"
    fi
    return 1
}

rust_ready() {
    mkdir -p host/target
    if [ ! -f "$SPLINE_SRC/zenjxl-decoder/src/features/spline.rs" ]; then
        rust_missing="SPLINE_SRC ($SPLINE_SRC) has no zenjxl-decoder/src/features/spline.rs"
        return 1
    fi
    find_compiler && return 0
    echo "no Rust compiler that makes $rust_target programs as the oracle needs them is here; installing Debian's"
    install_compiler || return 1
    find_compiler && return 0
    rust_missing="there is no Rust compiler for $rust_target that the oracle can use, and Debian's is none either"
    return 1
}

rust_cargo() { # COMMAND WORDS..
    command=$1
    shift
    RUSTC=$RUSTC CARGO_TARGET_DIR=$PWD/host/target CARGO_TARGET_X86_64_UNKNOWN_LINUX_GNU_LINKER=${rust_linker:-cc} \
        "$CARGO" "$command" --quiet --release --offline --target "$rust_target" --manifest-path host/Cargo.toml "$@"
}

rust_build() { rust_cargo build "$@"; }
rust_test() { rust_cargo test "$@"; }

# shellcheck disable=SC2086
rust_run() { # PROGRAM WORDS..
    program=$1
    shift
    $rust_runner "host/target/$rust_target/release/$program" "$@"
}
