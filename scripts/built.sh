# What rt builds, for the scripts that run this file by `.` from the root of the repository.
#
#     BRECCIANEST_LIB_DIR   folder of libbreccianest.a (target/staticlib)
#     BILL, NOTICE          the programs (target/bin/bill, target/bin/notice)
#
# What is named is used as it is. Otherwise rt builds what is not there or older than a file of the crates.

# stale FILE
stale() {
    [ ! -e "$1" ] || [ -n "$(find crates crates.txt -type f -not -path '*/out/*' -newer "$1" -print -quit)" ]
}

# run_rt WORD CRATE: in the crate's folder. What rt says is shown only if it fails. A program that rt runs is fed nothing.
run_rt() {
    if ! command -v rt >/dev/null 2>&1; then
        echo "rt, the command of the Rattle toolchain, is not on PATH: README.md, \"Tests\", says what is needed" >&2
        exit 1
    fi
    echo "rt $1, of $2"
    if ! said=$(cd "crates/$2" && rt "$1" 2>&1 </dev/null); then
        printf '%s\n' "$said" >&2
        exit 1
    fi
}

# put FILE PLACE: a copy, newer than what it was made from.
put() {
    mkdir -p "$(dirname "$2")"
    cp "$1" "$2"
}

# there FILE COMMAND: the file must be there.
there() {
    if [ ! -e "$1" ]; then
        echo "$1 is not there: '$2' builds it" >&2
        exit 1
    fi
}

# absolute PATH
absolute() {
    case $1 in
    /*) echo "$1" ;;
    *) echo "$PWD/$1" ;;
    esac
}

use_library() {
    if [ -z "${BRECCIANEST_LIB_DIR:-}" ]; then
        BRECCIANEST_LIB_DIR=target/staticlib
        if stale target/staticlib/libbreccianest.a; then
            run_rt lib breccianest_c
            put crates/breccianest_c/out/libbreccianest_c.a target/staticlib/libbreccianest.a
        fi
    fi
    BRECCIANEST_LIB_DIR=$(absolute "$BRECCIANEST_LIB_DIR")
    there "$BRECCIANEST_LIB_DIR/libbreccianest.a" "scripts/build"
    export BRECCIANEST_LIB_DIR
}

# in_reference COMMAND: cargo on the reference with the library linked, after use_library.
linked=$PWD/reference/target/linked
in_reference() {
    (cd reference && cargo "$1" --quiet --release --offline --features linked --target-dir "$linked")
}

use_programs() {
    if [ -z "${BILL:-}" ] || [ -z "${NOTICE:-}" ]; then
        for program in bill notice; do
            if stale target/bin/$program; then
                run_rt run $program
                put crates/$program/out/$program target/bin/$program
            fi
        done
    fi
    BILL=$(absolute "${BILL:-target/bin/bill}")
    NOTICE=$(absolute "${NOTICE:-target/bin/notice}")
    there "$BILL" "scripts/build"
    there "$NOTICE" "scripts/build"
}
