# The parts of the scripts run and faults: the caller and the Rust program. To be
# sourced in the repository's root.

. kit/kit.sh

made=target/second
default_seed=1
default_count=1000000

# The C program that makes the calls.
build_caller() { # ARCHIVE FOLDER
    build_c_program second/caller.c "$1" "$2/caller"
}

caller_command() { # FOLDER
    program_command "$1/caller"
}

# The Rust program. Cargo keeps its own files below the folder too.
build_program() { # SOURCE FOLDER
    CARGO_HOME=$(realpath -m "$2/cargo") cargo build --quiet --release --offline --locked --jobs 2 \
        --manifest-path "$1/Cargo.toml" --target-dir "$2"
}
