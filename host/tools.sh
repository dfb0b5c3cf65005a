# Compiling C for x86-64 and running it, for host/run: sourced, not run.
#
# TOOLS says with what. `cc` is a compiler of this machine ($CC, or cc on x86-64 and x86_64-linux-gnu-gcc elsewhere). `kit` is the clang, the linker
# and the C library that Rattle's kit has, for which host/kit/ has the headers: nothing else is needed. Unset, it is `cc` where such a compiler makes
# a program, else `kit`.
kit=$(dirname "$(rt doc)")/toolchain
warnings="-O2 -std=gnu11 -Wall -Wextra"
if [ "$(uname -m)" = x86_64 ]; then
    compiler=${CC:-cc}
else
    # The kit's own programs are for x86-64, so where rt runs such programs run; this one then needs no loader.
    compiler="${CC:-x86_64-linux-gnu-gcc} -static"
fi

# Whether the machine's compiler makes a program out of a C file: it has to have headers and a C library as well.
compiler_works() {
    printf '#include <pthread.h>\n#include <stdio.h>\nint main(void) { return puts("") < 0; }\n' >"$1/probe.c"
    $compiler -pthread -o "$1/probe" "$1/probe.c" >"$1/probe.log" 2>&1
}

# compile OUT FLAGS.. FILES..: flags and files as a compiler takes them, -I, -L and -l among them.
compile() {
    local out=$1
    shift
    if [ "$TOOLS" = cc ]; then
        $compiler $warnings -pthread -o "$out" "$@"
    else
        compile_by_kit "$out" "$@"
    fi
}

# The kit's clang knows no headers and its linker no C library, so each is named here.
compile_by_kit() {
    local out=$1 bin=$kit/bin lib=$kit/lib word includes=() files=() links=()
    shift
    for word in "$@"; do
        case $word in
        -I*) includes+=("$word") ;;
        *.c) files+=("$word") ;;
        *) links+=("$word") ;;
        esac
    done
    local objects=() file
    for file in "${files[@]}"; do
        "$bin/clang" --target=x86_64-linux-gnu $warnings -nostdinc -isystem host/kit "${includes[@]}" -fPIE -c "$file" -o "$out.$(basename "$file").o"
        objects+=("$out.$(basename "$file").o")
    done
    "$bin/ld.lld" -pie --gc-sections -dynamic-linker /lib64/ld-linux-x86-64.so.2 -o "$out" \
        "$lib/Scrt1.o" "$lib/crti.o" "$lib/crtbeginS.o" "${objects[@]}" "${links[@]}" \
        "$lib/libc.so.6" "$lib/libc_nonshared.a" "$lib/libgcc.a" "$lib/libgcc_s.so.1" "$lib/ld-linux-x86-64.so.2" "$lib/crtendS.o" "$lib/crtn.o"
}

# execute PROGRAM: a program of the kit's C library is started by the kit's loader, since the machine may have an older one, or none.
execute() {
    local command=("$1")
    if [ "$TOOLS" = kit ]; then
        command=("$kit/lib/ld-linux-x86-64.so.2" --library-path "$kit/lib" "$1")
    fi
    "${command[@]}"
}
