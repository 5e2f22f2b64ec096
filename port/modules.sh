# What page/build and port/build share: the kit's tools, the module of a program or of the C
# library, and the guards. Read by `.` in the repository's root.
#
# A module is what the kit's compiler lowers a proved crate to, as LLVM's text, in
# target/module/NAME.ll, with the words by which the kit has its clang make an object of it for
# x86-64 beside it, NAME.words. port/module.py has them from a build by the kit itself. The kit's own
# clang must make of the text kept, to the byte, the object of that build, and that build must be, to
# the byte, what `./run` has: so the module is that program's, or the library's.

die() { printf '%s: %s\n' "$me" "$*" >&2; exit 1; }
command -v rt >/dev/null || die 'rt is not found: put the bin folder of the Rattle kit on the PATH'
kit=$(dirname "$(rt doc)")
tools=$kit/toolchain clang=$kit/toolchain/bin/clang
modules=target/module

sum_of() { sha256sum <"$1" | cut -d' ' -f1; }

# What a file made of NATIVE by this way depends on: NATIVE, the kit and the scripts.
key_of() { # NATIVE SCRIPT..
    cat "$@" port/modules.sh port/module.py port/portable.awk port/narrow.awk port/intrinsics.txt page/start.txt "$kit/KIT-ID" | sha256sum | cut -d' ' -f1
}

# The module of a program, target/module/NAME.ll.
program_module() { # NAME
    built=target/bin/$1
    [ -f "$built" ] || die "$1 is not built: ./run --build $1"
    key=$(key_of "$built")
    [ -f "$modules/$1.ll" ] && [ "$(cat "$modules/$1.of" 2>/dev/null)" = "$key" ] && return
    make_module "$1"
    cmp -s "$room/native.o" "$room/native" || die "$1: the text kept is not that of the object of the build"
    cmp -s "$room/program" "$built" || die "$1: the module kept is not that of $built"
    keep_module "$1" "$key"
}

# The module of the C library, target/module/abi.ll.
library_module() {
    archive=target/staticlib/libabi.a
    ./run --library || die 'the library for C is not built'
    key=$(key_of "$archive")
    [ -f "$modules/abi.ll" ] && [ "$(cat "$modules/abi.of" 2>/dev/null)" = "$key" ] && return
    make_module abi_c
    cmp -s "$room/native" "$archive" || die "abi: the module kept is not that of $archive"
    # The archive has one member, which is that object.
    (cd "$room" && "$tools/bin/llvm-ar" x native && rm native && set -- *.o && [ $# -eq 2 ] && for it; do [ "$it" = native.o ] || mv "$it" native; done) &&
        cmp -s "$room/native.o" "$room/native" || die 'abi: the text kept is not that of the member of the archive'
    keep_module abi "$key"
}

# Builds a crate by the kit for its module: $room has the text, module.ll, and what the kit's clang
# makes of that, native.o.
make_module() { # CRATE
    room=$PWD/$modules/room.$1
    rm -rf "$room"
    mkdir -p "$room"
    port/module.py "$1" "$room" >"$room/log" 2>&1 || { tail -n 5 "$room/log" >&2; die "$1: the kit gave no module"; }
    text_of "$room/module.bc" "$room/module.ll"
    native_object "$room/module.ll" "$room/native.o" "$room/said" "$room/words" || { cat "$room/said" >&2; die "$1: the kit's clang does not compile the module kept"; }
}

# A module's text, as it is: no pass goes over it.
text_of() { # MODULE TEXT
    "$clang" --no-default-config -x ir "$1" -S -emit-llvm -Xclang -disable-llvm-passes -o "$2" || die "$1 is no module"
}

# An object for x86-64, as the kit makes it: WORDS has the words of its clang, a line each.
native_object() { # TEXT OBJECT SAID WORDS
    from=$1 to=$2 said=$3
    set -- "$4"
    while IFS= read -r word; do set -- "$@" "$word"; done <"$1"
    shift
    "$clang" --sysroot="$tools" "$@" "$from" -o "$to" >"$said" 2>&1
}

# Holds the module in ROOM to the guards and keeps it.
keep_module() { # NAME KEY
    portable "$room/module.ll" || die "$1: what is said above depends on the machine"
    mv "$room/words" "$modules/$1.words"
    mv "$room/module.ll" "$modules/$1.ll"
    printf '%s\n' "$2" >"$modules/$1.of"
    rm -rf "$room"
}

# Whether a module means the same on every processor: portable.awk says what must not be in it,
# intrinsics.txt what LLVM's own functions it may call, imports.txt the C functions, and start.txt
# those that a program's start asks of x86-64.
portable() { # TEXT
    awk -v listed="port/intrinsics.txt page/imports.txt page/start.txt" -f port/portable.awk "$1" >&2
}

# A module's code for another processor, its memory laid out as natively (narrow.awk). The lines that name x86-64 are left out, so that clang puts
# the target's own in, and the words by which a function looks at each page of a large stack there;
# whatever clang says then stops the build.
compile_for() { # TEXT OBJECT SAID -c|-S WORDS..
    text=$1 object=$2 said=$3
    shift 3
    awk -f port/narrow.awk "$text" | sed -e '/^target datalayout = /d' -e '/^target triple = /d' -e '/^attributes /s/ "\(target-cpu\|probe-stack\|stack-probe-size\)"="[^"]*"//g' >"$object.ll"
    "$clang" --no-default-config -fintegrated-cc1 -fno-crash-diagnostics -Wno-override-module -O3 -ffunction-sections -fdata-sections -mllvm -trap-unreachable "$@" -x ir "$object.ll" -o "$object" 2>"$said" ||
        { cat "$said" >&2; die "$text is not compiled"; }
    [ ! -s "$said" ] || { cat "$said" >&2; die "$text: clang said the above"; }
    rm -f "$object.ll" "$said"
}

# As WebAssembly, what stands for what a program's start asks of x86-64.
start_of() { # OBJECT
    "$clang" --no-default-config --target=wasm32-unknown-unknown -ffreestanding -O3 -Wall -Wextra -Werror -c page/start.c -o "$1" || die 'page/start.c is not compiled'
}

# An object linked as rt links a program.
linked_program() { # OBJECT PROGRAM SAID
    "$kit/bin/rattle-link" --target x86_64-unknown-linux-gnu --toolchain "$tools" -o "$2" "$1" "$kit/c/libos_c.a" "$kit/c/liblibc_c.a" >"$3" 2>&1
}
