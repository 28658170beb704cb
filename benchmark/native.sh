#!/bin/sh
# native.sh OBJECT: the proved library compiled for this machine itself, for timing only. The archive is x86-64 code; on another
# machine that code runs under an emulator, where times mean nothing. So the LLVM module that rattle hands to the kit's clang for
# boundary_c is kept, by way of a folder that links to the kit's toolchain and has a clang of its own, and the kit's clang compiles
# that module once more, at the same -O3, for this machine. (It says that it does not know the processor x86-64 that the module
# names, and goes on.)
# What is proved and tested is the x86-64 archive; this object is neither.
set -eu
here=$(cd "$(dirname "$0")" && pwd -P)
root=$(dirname "$here")
. "$root/c/kit.sh"
object=$1
kept=$object.bc

cd "$root"
tools/programs boundary_c
if [ ! -f "$kept" ] || [ -n "$(find target/staticlib/libboundary.a -newer "$kept")" ]; then
    view=$(mktemp -d)
    trap 'rm -rf "$view"' EXIT
    mkdir "$view/bin"
    ln -s "$kit_tools/lib" "$view/"
    ln -s "$kit_tools/bin"/* "$view/bin/"
    rm "$view/bin/clang"
    cat >"$view/bin/clang" <<WRAPPER
#!/bin/sh
# keeps the module that is compiled, and compiles it
for word in "\$@"; do case \$word in *.bc) cp "\$word" "$view/module.bc" ;; esac; done
exec "$kit_tools/bin/clang" "\$@"
WRAPPER
    chmod +x "$view/bin/clang"
    kit_call build boundary_c --toolchain "$view" --backend llvm -o "$view/archive.a"
    mv "$view/module.bc" "$kept"
fi
"$kit_tools/bin/clang" --target="$(uname -m)-unknown-linux-gnu" -Wno-override-module -O3 -fPIC -c -x ir "$kept" \
    -o "$object"
