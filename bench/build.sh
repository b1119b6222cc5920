# Shared by the scripts beside it, which run it from the top of the repository. It builds the benchmark for release, linked with the library.
folder=crates/boundary/out
library=$folder/libboundary.a
out=target/bench

fail() {
    printf 'bench: %s\n' "$*" >&2
    exit 1
}

need() { # TOOL
    command -v "$1" >/dev/null 2>&1 || fail "the command '$1' is missing"
}

# The program, and in a file beside it the names of its sources.
compile() { # PROGRAM SOURCE
    rustc --edition 2021 -D warnings -C opt-level=3 -L "native=$folder" -l static=boundary \
        --emit "link=$out/$1,dep-info=$out/$1.d" "bench/src/$2" || fail "$2 does not compile"
}

# Always anew, as the library may have changed: it takes some seconds.
build() {
    [ -f "$library" ] || fail "$library is missing; 'rt lib' in crates/boundary builds it"
    need rustc
    mkdir -p "$out"
    compile bench main.rs
    compile driver driver.rs
}

# The plain C console of a HARNESS, behind its driver.
build_plain_c() {
    "${CC:-gcc}" -O2 "$harness/refconsole.c" "$harness/drive_console.c" -o "$out/plain_c" ||
        fail 'the plain C console does not compile'
}

# What was measured, on what.
say_machine() {
    printf 'Date %s; %s, %s processors; %s; library %s bytes, checksum %s.\n' "$(date +%Y-%m-%d)" \
        "$(sed -n 's/^model name[^:]*: //p' /proc/cpuinfo | head -n 1)" "$(grep -c '^processor' /proc/cpuinfo)" \
        "$(rustc --version)" "$(wc -c <"$library")" "$(cksum <"$library" | cut -d ' ' -f 1)"
}
