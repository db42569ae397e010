# To be sourced: how C is compiled for x86-64, linked and started, on x86-64 and on 64-bit Arm alike.
# The compiler, the linker and the C library are those of the Rattle kit, found as rt finds them; include/ has the C headers that the kit lacks.
# Where there is no kit's compiler, cc and its own headers and libraries stand in, which must be those of an x86-64 machine.

headers=$(cd "$(dirname "${BASH_SOURCE[0]}")/include" && pwd -P)
kit=${RATTLE_HOME:-$(dirname "$(dirname "$(readlink -f "$(command -v rt || echo /none/bin/rt)")")")}
toolchain=$kit/toolchain

# What starts a program: the emulator where the machine needs one, then the kit's loader with the kit's C library.
emulator=() loader=()
if [ -x "$toolchain/bin/clang" ]; then
    [ ! -x "$toolchain/bin/qemu-x86_64" ] || emulator=("$toolchain/bin/qemu-x86_64")
    loader=("$toolchain/lib/ld-linux-x86-64.so.2" --library-path "$toolchain/lib")
fi

compile_c() { # OBJECT SOURCE [WORDS...]
    local object=$1 source=$2
    shift 2
    if [ -x "$toolchain/bin/clang" ]; then
        set -- "$toolchain/bin/clang" --target=x86_64-linux-gnu -nostdinc -isystem "$headers" "$@"
    else
        set -- cc "$@"
    fi
    "$@" -std=gnu11 -Wall -Wextra -fPIE -c "$source" -o "$object"
}

link_program() { # PROGRAM OBJECTS-AND-ARCHIVES...
    local program=$1 lib=$toolchain/lib
    shift
    if [ -x "$toolchain/bin/clang" ]; then
        "$toolchain/bin/ld.lld" -pie -dynamic-linker "$lib/ld-linux-x86-64.so.2" -o "$program" "$lib/Scrt1.o" "$lib/crti.o" "$@" \
            "$lib/libc.so.6" "$lib/libc_nonshared.a" "$lib/libgcc.a" "$lib/crtn.o"
    else
        cc -pie -o "$program" "$@"
    fi
}

# Writes a script that starts a program, which is given by its whole path.
write_launcher() { # SCRIPT PROGRAM
    {
        printf '#!/usr/bin/env bash\nexec'
        printf ' %q' "${emulator[@]}" "${loader[@]}" "$2"
        printf ' "$@"\n'
    } >"$1"
    chmod +x "$1"
}
