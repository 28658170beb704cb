#!/bin/sh
# Builds target/c/driver, target/c/test and, where there is a Rust compiler, target/c/rust_test: x86-64 programs over the
# proved static library and its declarations.
# On x86-64 with the machine's own C compiler (or the one that CC names); elsewhere, or where there is none, with the
# compiler, linker and C library of the Rattle kit, which is found through the command `rt`. It installs nothing.
set -eu
here=$(cd "$(dirname "$0")" && pwd -P)
root=$(dirname "$here")
out=$root/target/c
archive=$root/target/staticlib/libboundary.a
. "$here/kit.sh"

cd "$root"
# The archive is made anew only where a crate has changed since: making it proves `boundary_c` once more.
tools/programs boundary_c
mkdir -p "$out"
flags='-std=c11 -O2 -Wall -Wextra -Werror'
native=
if [ "$(uname -m)" = x86_64 ] && command -v "${CC:-cc}" >/dev/null 2>&1; then
    native=yes
fi

# compile NAME: c/NAME.c to an x86-64 object.
compile() {
    if [ "$native" ]; then
        # shellcheck disable=SC2086
        "${CC:-cc}" $flags -c -o "$out/$1.o" "$here/$1.c"
    else
        # shellcheck disable=SC2086
        "$kit_tools/bin/clang" --target=x86_64-linux-gnu $flags -fPIE -nostdinc -isystem "$here/kit" -c \
            -o "$out/$1.o" "$here/$1.c"
    fi
}

# link NAME: its object and the library to the program target/c/NAME.
link() {
    if [ "$native" ]; then
        "${CC:-cc}" -o "$out/$1" "$out/$1.o" "$archive"
    else
        "$kit_tools/bin/ld.lld" -pie -dynamic-linker /lib64/ld-linux-x86-64.so.2 -o "$out/$1" \
            "$kit_tools/lib/Scrt1.o" "$kit_tools/lib/crti.o" "$kit_tools/lib/crtbeginS.o" \
            "$out/$1.o" "$archive" "$kit_tools/lib/libc.so.6" "$kit_tools/lib/libc_nonshared.a" \
            "$kit_tools/lib/libgcc.a" "$kit_tools/lib/crtendS.o" "$kit_tools/lib/crtn.o"
    fi
}

# rust TARGET EMIT OUT: c/test.rs, which holds c/zernoplysk.rs.
rust() {
    rustc --edition 2021 --crate-type lib --crate-name rust_test --target "$1" --emit "$2" -o "$3" \
        -C opt-level=2 -C panic=abort -C codegen-units=1 -C relocation-model=pic -D warnings "$here/test.rs"
}

# The Rust side to an x86-64 object. Where Rust's own library for x86-64 is not on the machine, rustc makes this machine's LLVM
# code, which for numbers and pointers of 64 bits is x86-64's too, and the kit's clang makes the object of that, if it is not
# older than rustc.
compile_rust() {
    if [ -d "$(rustc --print sysroot)/lib/rustlib/x86_64-unknown-linux-gnu/lib" ]; then
        rust x86_64-unknown-linux-gnu obj "$out/rust_test.o"
    else
        rust "$(rustc --version --verbose | sed -n 's/^host: //p')" llvm-ir "$out/rust_test.ll"
        sed -i -e '/^target datalayout/d' -e 's/^target triple.*/target triple = "x86_64-unknown-linux-gnu"/' \
            -e 's/"target-cpu"="[^"]*"//; s/"target-features"="[^"]*"//' "$out/rust_test.ll"
        "$kit_tools/bin/clang" --target=x86_64-linux-gnu -O2 -fPIE -Wno-override-module -c \
            -o "$out/rust_test.o" "$out/rust_test.ll" || rm -f "$out/rust_test.o"
    fi
}

for name in driver test; do
    compile "$name"
    link "$name"
done
rm -f "$out/rust_test" "$out/rust_test.o"
if ! command -v rustc >/dev/null 2>&1; then
    echo "c: target/c/driver and target/c/test are built; without rustc there is no target/c/rust_test"
    exit
fi
compile_rust
if [ -f "$out/rust_test.o" ]; then
    link rust_test
    echo "c: target/c/driver, target/c/test and target/c/rust_test are built"
else
    echo "c: target/c/driver and target/c/test are built; of this rustc the kit's clang makes no x86-64 object"
fi
