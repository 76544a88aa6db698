# Sourced by the scripts of host/, which run in the repository's root. All is built into target/host.
#   LIB=path    the library's archive; LIB=reference is that of host/reference, to try the tools by themselves.
#               Not set: target/staticlib/libkezubimoryu.a, proved and written by rt in crates/kezubimoryu/out, from where
#               it is copied, since rt ci clears that folder

built=target/host
# the library's version, which stands in the header and nowhere else
version=$(sed -n 's/^#define KEZ_VERSION "\(.*\)"$/\1/p' include/kezubimoryu.h)
# the shared library's name at run time. Its number rises where an entry takes other arguments than before, so that no
# program runs with a library that it was not compiled for
soname=libkezubimoryu.so.1
mkdir -p "$built"

# stale TARGET SOURCE..: is the target missing, or older than a source?
stale() {
    local target=$1
    shift
    [ ! -e "$target" ] || [ -n "$(find "$@" -type f -newer "$target" -print -quit)" ]
}

# need TOOL WHY: is it on the PATH? If not, a sentence says so
need() {
    command -v "$1" > /dev/null || { echo "$1 is not on the PATH: $2"; return 1; }
}

# number NAME VALUE [LEAST]: is it a whole number, of at most 18 digits? If not, a sentence says so
number() {
    [[ $2 =~ ^[0-9]{1,18}$ ]] && [ "$2" -ge "${3:-0}" ] ||
        { echo "$1 is a whole number from ${3:-0} on, of at most 18 digits, and not '$2'"; return 1; }
}

# quietly COMMAND..: what it says is shown only if it fails
quietly() {
    "$@" > "$built/log" 2>&1 || { cat "$built/log"; return 1; }
}

# the program, the archive and the shared library of host/reference
build_reference() {
    stale "$built/reference" host/reference || return 0
    need rustc 'it compiles host/reference, the implementation in plain Rust' || return 1
    quietly rustc --edition 2021 -O --crate-type rlib,staticlib,cdylib --crate-name reference --out-dir "$built" host/reference/lib.rs &&
        quietly rustc --edition 2021 -O --extern "reference=$built/libreference.rlib" -o "$built/reference" host/reference/main.rs
}

build_requests() {
    stale "$built/requests" host/requests.rs host/requests host/reference/sha256.rs || return 0
    need rustc 'it compiles host/requests.rs, which makes the requests' || return 1
    quietly rustc --edition 2021 -O -o "$built/requests" host/requests.rs
}

# crates_below NAME: it and all that it uses, by crates.txt
crates_below() {
    awk -F : -v names="$1" '
        /^[a-z0-9]+( staticlib)?:/ { sub(/ .*/, "", $1); uses[$1] = $2 }
        END {
            for (n = split(names, todo, " "); n; ) {
                name = todo[n--]
                if (!(name in uses) || done[name]++) continue
                print name
                for (k = split(uses[name], used, " "); k; k--) todo[++n] = used[k]
            }
        }' crates.txt
}

# proves what the library uses, then the library, and writes its archive. rt proves anew only what no check on this
# machine has proved as it stands. A line is shown as each crate is proved; all that rt says only if it fails
prove_library() {
    local cores crate=
    need rt "it is the Rattle toolchain's command and proves the library; LIB=FILE takes an archive that is there" ||
        return 1
    # a core for each 4 GB that are free
    cores=$(awk -v all="$(nproc)" '/^MemAvailable:/ { n = int($2 / 4000000) }
        END { print n < 1 ? 1 : n < all ? n : all }' /proc/meminfo)
    echo "First the library is proved: $(crates_below kezubimoryu | wc -l) crates, some 20 to 40 minutes on four cores from"
    echo "nothing; less where a part of them is proved already."
    (cd crates/kezubimoryu && rt lib --jobs "$cores") 2>&1 | tee "$built/log" | while read -r kind name _; do
        case $kind in crate) crate=${name%:} ;; logic=proved) echo "$crate is proved" ;; esac
    done
    [ "${PIPESTATUS[0]}" = 0 ] || { cat "$built/log"; return 1; }
    mkdir -p "${archive%/*}" && cp crates/kezubimoryu/out/libkezubimoryu.a "$archive"
}

# sets archive
build_library() {
    need gcc 'it compiles the C programs' || return 1
    case ${LIB:-} in
        '')
            archive=target/staticlib/libkezubimoryu.a
            ! stale "$archive" crates/*/src crates/*/specs crates/*/proofs crates.txt || prove_library
            ;;
        reference)
            archive=$built/libreference.a
            build_reference
            ;;
        *)
            archive=$LIB
            [ -f "$archive" ] || { echo "there is no $archive"; return 1; }
            ;;
    esac
}

# the same library to be loaded at run time
build_shared() {
    quietly gcc -shared -Wl,-soname,"$soname" -o "$built/libkezubimoryu.so" -Wl,--whole-archive "$archive" \
        -Wl,--no-whole-archive -lpthread -ldl -lm
}

# build_c NAME SOURCE [WORDS..]: a C program over the archive
build_c() {
    local name=$1 source=$2
    shift 2
    quietly gcc -Wall -Wextra -O2 -Iinclude -o "$built/$name" "$source" "$archive" "$@" -lpthread -ldl -lm &&
        cat "$built/log"
}
