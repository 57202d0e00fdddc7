# What our scripts need of the Rattle kit: where it is, the archive of the
# library, a C program that is linked with it, and the command that runs x86-64
# code. To be sourced in the repository's root.

archive=target/staticlib/libprobe.a
processor=x86_64-unknown-linux-gnu

# Ends the script: something could not be found or built.
cannot() { # WHY
    echo "$0: $1" >&2
    exit 2
}

find_kit() {
    command -v rt >/dev/null || cannot 'there is no rt on the path'
    kit=${RATTLE_HOME:-$(dirname "$(dirname "$(readlink -f "$(command -v rt)")")")}
    tools=$kit/toolchain
    [ -x "$tools/bin/clang" ] || cannot "the kit at $kit has no compiler"
}

# Whether something that the repository's crates are made into is missing, or
# older than one of their files. What rt makes of a crate, in its folder out/,
# does not count, nor that the folder was put there.
is_stale() { # MADE
    [ ! -f "$1" ] ||
        [ -n "$(find crates crates.txt -name out -prune -o -newer "$1" \( ! -type d -o -path 'crates/*/*' \) -print -quit)" ]
}

# The archive is proved and written unless it is newer than all that it is made of.
# rt makes it of the crate probe_c and by that name; so it is copied, and counts as
# made when this began.
build_archive() {
    local began=target/archive.began
    is_stale "$archive" || return 0
    mkdir -p "$(dirname "$archive")" && touch "$began" || exit 2
    (cd crates/probe_c && rt lib) && cp crates/probe_c/out/libprobe_c.a "$archive" || exit 2
    touch -r "$began" "$archive"
}

# Has the kit's compiler look at a C or C++ file, with our own headers since it
# has none.
compile() { # WORDS..
    "$tools/bin/clang" --target="$processor" -nostdinc -isystem kit/headers -I include \
        -Wall -Wextra -Wpedantic -Werror "$@" || exit 2
}

# A C program that is linked with an archive. It is for x86-64, as the archive is.
build_c_program() { # SOURCE ARCHIVE PROGRAM
    mkdir -p "$(dirname "$3")"
    compile -std=c11 -O2 -fPIC -c "$1" -o "$3.o"
    "$kit/bin/rattle-link" --target "$processor" --toolchain "$tools" \
        -o "$3" "$3.o" "$2" 2>"$3.said" || { cat "$3.said" >&2; exit 2; }
}

# The command that runs such a program: under the kit's loader and C library.
program_command() { # PROGRAM
    command=("$tools/lib/ld-linux-x86-64.so.2" --library-path "$tools/lib" "$1")
}
