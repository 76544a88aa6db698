# Sourced by the scripts of this folder, after host/build.sh.

fuzz=host/fuzz
sanitized='-g -O1 -fno-omit-frame-pointer -fsanitize=address,undefined -fno-sanitize-recover=all'
# leaks are asked for nowhere: the harness keeps its buffers to the end
export ASAN_OPTIONS=detect_leaks=0${ASAN_OPTIONS:+:$ASAN_OPTIONS}

# a gcc without the sanitizers' libraries still has the guard pages
if ! echo 'int main(void) { return 0; }' | gcc $sanitized -x c -o "$built/sanitized" - 2> /dev/null || ! "$built/sanitized"; then
    echo "gcc has no sanitizers here (Debian: libgcc-12-dev has them): guard pages alone"
    sanitized='-g -O1'
fi

# build_fuzz COMPILER NAME WORDS..: the harness over the archive
build_fuzz() {
    local compiler=$1 name=$2
    shift 2
    quietly "$compiler" -Wall -Wextra -Iinclude -I$fuzz -o "$built/$name" $fuzz/properties.c $fuzz/generate.c \
        host/plain_sha256.c "$@" "$archive" -lpthread -ldl -lm &&
        cat "$built/log"
}
