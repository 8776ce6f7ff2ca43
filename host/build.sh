# Sourced by the scripts that prove and build; its file names are those from the top of the repository.
archive=target/staticlib/libmirokefa_c.a
program=crates/mirokefa/out/mirokefa # where rt leaves it
formats=target/tool/libformats.rlib
tool=target/tool/mirokefa-job
rust_checked=(rustc --edition 2021 -D warnings) # compiled sooner, and a sum that overflows stops it
rust=("${rust_checked[@]}" -O)
with_formats=(--extern "formats=$formats")
with_library=("${with_formats[@]}" -L "${archive%/*}" -l static=mirokefa_c)

need_rt() {
    if ! command -v rt > /dev/null; then
        echo 'rt is not on the path: the Rattle kit is needed to prove and build' >&2
        exit 2
    fi
}

stale() { # is the first file missing, or older than one of the others?
    [ ! -e "$1" ] || [ -n "$(find "${@:2}" -newer "$1" -type f -print -quit)" ]
}

build_formats() { # Job A's source and the words of the numbers are parts of it
    if stale "$formats" tool/formats jobs/job-a.s docs/NUMBERS.md; then
        mkdir -p "${formats%/*}"
        "${rust[@]}" --crate-type rlib --crate-name formats -o "$formats" tool/formats/lib.rs
    fi
}

build_tool() { # the oracle's plain machine is a part of it
    build_formats
    if stale "$tool" tool host/oracle.rs "$formats" "$archive"; then
        "${rust[@]}" "${with_library[@]}" -o "$tool" tool/mirokefa-job.rs
    fi
}

build_program() { # by a run on its own stored job; rt ci leaves it behind too
    if stale "$program" crates.txt crates/*/{src,specs,proofs}; then
        host/prove
        if ! (cd crates/mirokefa && rt run < stdin) > target/program.log 2>&1; then
            tail -n 20 target/program.log
            echo "$program is not built; target/program.log has all that the prover says" >&2
            exit 1
        fi
    fi
}

# What ./explore, ./place and ./count share; top is the top of the repository, and the caller may stand elsewhere.

wants_help() { # is one of the words an option for it, or is it the only word?
    local word
    for word in "$@"; do
        case $word in -h | --help) return ;; esac
    done
    [ "$*" = help ]
}

need_files() { # before minutes of proving
    local name
    for name in "$@"; do
        if [ ! -e "$name" ]; then
            echo "./${0##*/}: there is no file $name" >&2
            exit 2
        fi
    done
}

run_tool() { # builds what is missing or older than its sources, and runs the tool with these words
    (
        cd "$top"
        host/archive
        build_tool
    ) >&2
    exec "$top/$tool" "$@"
}
