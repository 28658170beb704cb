# Sets kit and kit_tools: the folder of the Rattle kit, and that of its compiler, linker and C library for x86-64.
# shellcheck shell=sh disable=SC2034
kit_rt=$(command -v rt) || { echo "c: no command rt (the Rattle kit) on this machine" >&2; exit 2; }
kit=$(dirname "$(dirname "$(readlink -f "$kit_rt")")")
kit_tools=$kit/toolchain

# kit_below NAME: the crates that this one stands on. Like kit_call, it is for the top of the repository.
kit_below() { sed -n "s/^$1\( staticlib\)\{0,1\}://p" crates.txt; }

# kit_call VERB NAME WORDS..: rattle's check or build of this crate alone, over the libraries below it as they stand in their out/.
kit_call() {
    kit_verb=$1 kit_name=$2 kit_file=src/lib.rt
    shift 2
    for kit_crate in std $(kit_below "$kit_name"); do
        if [ -d "crates/$kit_crate" ]; then
            set -- "$@" --extern "$kit_crate=../$kit_crate/out/rlib/$kit_crate.rlib" -L "dependency=../$kit_crate/out/rlib"
        else
            set -- "$@" --extern "$kit_crate=$kit/rlibs/$kit_crate.rlib"
        fi
    done
    if [ -f "crates/$kit_name/src/main.rt" ]; then kit_file=src/main.rt; fi
    if grep -q "^$kit_name staticlib:" crates.txt; then set -- "$@" --crate-type staticlib; fi
    (cd "crates/$kit_name" && mkdir -p out && "$kit/bin/rattle" "$kit_verb" --crate-name "$kit_name" "$kit_file" \
        -L "dependency=$kit/rlibs" --antt-project "$kit/rattle/logic/antt-project.json" --logic-built "$kit/logic_built" \
        --jobs 2 --links "$kit_name=" "$@")
}
