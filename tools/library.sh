# How the libraries for C are made of the static library that `./build library` builds, and of the toolchain's allocator. What is installed,
# the Debian packages and the package for Python all have them from here. Who reads this file has read `sources.sh`.

version=$(< "$top/VERSION")

# By which name programs ask for the shared library. It has the first number of the version, and the second too as long as the first is 0:
# as far as that the calls of a later version are those of an earlier one.
shared_name() {
    case $version in
        0.*) printf 'libtfpg.so.%s\n' "${version%.*}" ;;
        *) printf 'libtfpg.so.%s\n' "${version%%.*}" ;;
    esac
}

# What a library needs that is made here, and where the toolchain's allocator is, in `heap`.
need_library() {
    [ "$(uname -sm)" = 'Linux x86_64' ] || give_up "the library is built for x86-64 and Linux, and this is $(uname -sm)"
    command -v cc > /dev/null || give_up 'cc, the C compiler, is not on the PATH: on Debian it is in the package gcc'
    need_rt
    heap=$(dirname "$(dirname "$(readlink -f "$(command -v rt)")")")/c/liblibc_c.a
    [ -s "$heap" ] || give_up "the toolchain's allocator is not there: $heap"
}

# Makes the shared library as this file. It is made beside its place, and then takes that at once, so that no part of it is ever there. All
# calls of the header are exported, and the version of the header, which the package for Python compares with its own. Nothing else is.
make_library() (
    mkdir -p "$(dirname "$1")"
    made=$(mktemp -d "$(dirname "$1")/making.XXXXXX")
    trap 'rm -r "$made"' EXIT
    printf '{ global: tfpg_*; local: *; };\n' > "$made/exports"
    printf '#include "tfpg.h"\nconst uint32_t tfpg_header_version = TFPG_HEADER_VERSION;\n' > "$made/version.c"
    cc -std=c99 -fPIC -shared -I "$top/include" -o "$made/library" "$made/version.c" -Wl,--whole-archive "$archive" -Wl,--no-whole-archive \
        "$heap" -s "-Wl,-soname,$(shared_name)" -Wl,-z,defs -Wl,-z,noexecstack -Wl,--version-script="$made/exports" &&
        mv "$made/library" "$1"
)
