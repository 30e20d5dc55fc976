#!/usr/bin/env bash
# The stack that each C call of include/desk.h uses at most, from the compiler's own frames along the deepest path of calls: bench/stack.sh
# (docs/TRUST.md, row "Stack"). It runs on either machine. By itself it tells of x86-64, the very code of libdesk.a; bench/stack.sh aarch64
# tells of the same module compiled for that processor, as bench/speed.sh compiles it. Functions named behind the processor are told of too, as
# far as the compiler has not laid them into their callers: bench/stack.sh x86_64 send::one_block::write_profile_block
#
# A line is a call, its bytes, and the deepest path: each function with what it holds there. That is its return address (8 bytes on x86-64;
# aarch64 has it in a register, and saves it in the frame), the registers it saves, its frame, the arguments it pushes for the next, and, in
# one that calls none, what it uses below the stack pointer. The compiler's number (-fstack-usage) is saved registers and frame, as the
# prologues show: number::read_real pushed six registers, took 72 bytes, and was said to have 120. It has neither the return address nor
# pushed arguments. So stack.awk follows the stack pointer through the text itself, and stops where it finds less than the compiler says.
#
# A call through a pointer, or a function called from below itself, stops it too: no path bounds the stack then. Functions of the C library
# are named at the end of a line and not counted.
set -euo pipefail
cd "$(dirname "$0")/.."
. .ci/setup
. bench/native.sh
machine=${1:-x86_64}
case $machine in x86_64 | aarch64) ;; *) echo "stack: x86_64 or aarch64"; exit 2 ;; esac
quietly rt check desk
keep_module desk staticlib desk

# The same clang and the same words, but for what comes in and goes out, and the processor where another is asked for.
words=()
while read -r word; do
    case $word in
        module.bc) words+=("$room/desk.bc") ;;
        -c | -o | module.o) ;;
        --target=* | -march=*) [ "$machine" != x86_64 ] || words+=("$word") ;;
        *) words+=("$word") ;;
    esac
done <"$room/desk.words"
if [ "$machine" = x86_64 ]; then
    # What is measured is what is in the library.
    "$tools/bin/clang" "${words[@]}" -fstack-usage -c -o "$room/desk.o"
    "$tools/bin/llvm-ar" p "$room/copy/target/staticlib/libdesk.a" | cmp - "$room/desk.o"
else
    words=("--target=$machine-unknown-linux-gnu" -Wno-override-module "${words[@]}")
fi
quietly "$tools/bin/clang" "${words[@]}" -fstack-usage -S -o "$room/desk.s"
{ sed -n 's/^[a-z].*\(dem_[a-z_]*\)(.*/\1/p' include/desk.h; printf '%s\n' "${@:2}"; } | sed '/^$/d' >"$room/calls"
awk -v machine="$machine" -f bench/stack.awk "$room/calls" "$room/desk.su" "$room/desk.s"
