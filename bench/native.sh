# Sourced by speed.sh, send.sh and stack.sh, behind .ci/setup: the kit, a room that is gone at the end, and what rt builds, for the
# machine at hand. rt builds for x86-64. On another processor a crate is built again in a copy by a clang that keeps the module which rattle
# hands it, and that module is compiled for this processor: the same code below the proof, another back end of the same clang.
home=${RATTLE_HOME:-$(dirname "$(dirname "$(readlink -f "$(command -v rt)")")")}
tools=$home/on/$(uname -m)/toolchain
room=$(mktemp -d)
chmod 755 "$room" # rt runs a program as nobody
trap 'rm -rf "$room"' EXIT

# A command that is heard only where it fails.
quietly() { "$@" >"$room/log" 2>&1 || { cat "$room/log"; exit 1; }; }

ratio() { awk -v a="$1" -v b="$2" 'BEGIN { printf "%.2f", a / b }'; }

# The copy of the house, and of the kit with that clang. The survey is to be built again there, so its stamp stays behind.
copy_house() {
    local copy=$room/copy kit=$room/kit own=on/$(uname -m)
    mkdir -p "$copy/target" "$kit/$own/toolchain/bin"
    ln -s "$home"/[!o]* "$kit/"
    ln -s "$home/$own"/[!t]* "$kit/$own/"
    ln -s "$tools/lib" "$kit/$own/toolchain/lib"
    ln -s "$tools/bin"/[!c]* "$kit/$own/toolchain/bin/"
    {
        echo '#!/bin/sh'
        echo "cp module.bc '$room/module.bc'"
        echo "printf '%s\\n' \"\$@\" >'$room/module.words'"
        echo "exec '$tools/bin/clang' \"\$@\""
    } >"$kit/$own/toolchain/bin/clang"
    chmod +x "$kit/$own/toolchain/bin/clang"
    cp -r crates crates.txt "$copy/" && cp -r target/rlib target/stamp "$copy/target/" && rm -f "$copy/target/stamp/survey"
}

# Builds in the copy, and leaves what the clang got: NAME.bc, and NAME.words, one a line. All that is built must be proved here before.
keep_module() { # NAME WORDS OF RT..
    [ -d "$room/copy" ] || copy_house
    (cd "$room/copy" && RATTLE_HOME=$room/kit quietly rt "${@:2}")
    mv "$room/module.bc" "$room/$1.bc"
    mv "$room/module.words" "$room/$1.words"
}

# The clang says of each function that it knows no processor x86-64.
object_here() { # NAME OPTION
    "$tools/bin/clang" -O3 "$2" -Wno-override-module -c -x ir "$room/$1.bc" -o "$room/$1.o" 2>/dev/null
}

# The C calls for this machine, to be linked, at $room/desk; the program at $room/survey.
native_desk() {
    if [ "$(uname -m)" = x86_64 ]; then
        quietly desk_library
        cp target/staticlib/libdesk.a "$room/desk"
    else
        keep_module desk staticlib desk
        object_here desk -fPIC
        cp "$room/desk.o" "$room/desk"
    fi
}

native_survey() {
    if [ "$(uname -m)" = x86_64 ]; then
        cp crates/survey/out/survey "$room/survey"
    else
        keep_module survey check survey
        object_here survey -fPIE
        gcc "$room/survey.o" -o "$room/survey"
    fi
}
