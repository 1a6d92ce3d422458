# What the scripts of oracle/ and examples/run share. Each sources it, has `take` look at its arguments, and then makes the
# repository its working directory.
#
# They need, by the names of Debian's packages, gcc, and cargo 1.84 or newer (rustup has one where the package's is older);
# oracle/root also python3, 3.9 or newer.
#
# The Rattle toolchain runs on x86-64 alone. On a machine of another kind the library and the programs are those that variables
# name, built on an x86-64 one: GUINEACRUMB_NATIVE an archive for this machine (oracle/native), and GUINEACRUMB_NAME a program,
# which runs under qemu-user where it is x86-64 code.
# shellcheck shell=bash

built=target/oracle
# The file to link, and the command that compiles a program in C for it; build_library sets the first, choose_compiler the other.
library='' compiler=()
# The command that makes the library's calls; build_server sets it.
server=()
# The command that runs a program of ours; build_program sets it.
program=()
# The one that makes the fleet table's calls; build_replay sets it.
replay=()
# Which glam the published Rust is compiled over, in words; lay_out_glam sets it.
glam=''

# stop WHY: ends the script as one that was called wrongly, or lacks something.
stop() {
    echo "$0: $1" >&2
    exit 2
}

# take LEAST NAMES WORD ..: looks at a script's arguments, before minutes of proving go by. NAMES has the names of what it
# takes, of which LEAST have to be there. A FILE, FOLDER, PART or TARGET is the script's to look at; any other is a whole
# number. `--help` prints the comment at the script's head.
take() {
    local least=$1 names name
    read -ra names <<<"$2"
    shift 2
    if [ "${1:-}" = --help ]; then
        sed -n '2,${/^#/!q; s/^# \{0,1\}//p}' "$0"
        exit 0
    fi
    [ $# -ge "$least" ] || stop "there is no ${names[$#]}; --help says what it takes"
    [ $# -le ${#names[@]} ] || stop "there are $# arguments, and it takes ${#names[@]}; --help says which"
    for name in "${names[@]:0:$#}"; do
        case $name in
        FILE | FOLDER | PART | TARGET) ;;
        *) [[ $1 =~ ^[0-9]{1,18}$ ]] || stop "$name is '$1', which is no whole number below 10^18; --help says what it takes" ;;
        esac
        shift
    done
}

# need COMMAND PACKAGE: stops where COMMAND is missing, and names the package that has it.
need() {
    command -v "$1" >/dev/null || stop "there is no $1 here. The package $2 of Debian and Ubuntu has it."
}

# need_rt WHAT VARIABLE: stops where there is no toolchain to build WHAT, which VARIABLE may name instead.
need_rt() {
    command -v rt >/dev/null || stop "there is no rt here, the command of the Rattle toolchain, to prove and build $1; $2 may name it, built elsewhere."
}

# Stops where there is no cargo, or one that is too old for the lock files and for what the programs are written in.
need_cargo() {
    local version
    need cargo cargo
    version=$(cargo --version)
    [[ $version =~ ([0-9]+)\.([0-9]+) ]] || stop "cargo --version says '$version'"
    ((BASH_REMATCH[1] > 1 || BASH_REMATCH[2] >= 84)) || stop "this is $version, and 1.84 is the oldest that will do; rustup has a newer one."
}

# quietly LOG COMMAND ..: what the command says is shown where it fails.
quietly() {
    local log=$1
    shift
    mkdir -p "$(dirname "$log")"
    "$@" >"$log" 2>&1 || {
        cat "$log" >&2
        exit 1
    }
}

# changed FILE FROM: makes FILE what FROM is; a FILE that is so already keeps its time, so that nothing is
# compiled again.
changed() {
    cmp -s "$1" "$2" || install -m 644 "$2" "$1"
}

# Lays the three published files out where oracle/dodgy_3d/Cargo.toml has them, and beside them what they
# name and the repository does not have: a page for the documentation, and tests.
lay_out_published() {
    local from=${DODGY_SRC:-../shared/docs/src} to=$built/dodgy_3d file
    local src=$from/crates/dodgy_3d/src
    if [ ! -d "$src" ]; then
        echo "$0: the published files of dodgy_3d are not in $src, and this repository has no copy." >&2
        echo "Set DODGY_SRC to a checkout of andriyDev/dodgy at commit ca08530013, the folder that has" >&2
        echo "crates/dodgy_3d/src in it." >&2
        exit 2
    fi
    (cd "$src" && sha256sum --check --quiet -) <oracle/dodgy_3d/published.sha256 >&2 ||
        stop "the files in $src are not those of commit ca08530013."
    mkdir -p "$to/src"
    for file in lib linear_programming simulator; do
        changed "$to/src/$file.rs" "$src/$file.rs"
    done
    changed "$to/src/linear_programming_test.rs" oracle/dodgy_3d/probe.rs
    for file in README.md src/lib_test.rs src/simulator_test.rs; do
        changed "$to/$file" /dev/null
    done
    lay_out_digits
}

# Writes the manifest of glam where oracle/dodgy_3d/Cargo.toml has it, below target/, and sets `glam`. It has the path of the
# source: glam's own as published, read where it stands, or the stand-in's where that is missing. GLAM_SRC=oracle/glam asks
# for the stand-in.
lay_out_glam() {
    local stand_in=oracle/glam from=${GLAM_SRC:-../shared/docs/src/glam-0.30.1} to=$built/glam
    local new=$to/Cargo.toml.new
    if [ -f "$from/src/f32/vec3.rs" ]; then
        (cd "$from/src" && sha256sum --check --quiet -) <"$stand_in/published.sha256" >&2 ||
            stop "the files in $from/src are not those of glam 0.30.1."
        glam="glam 0.30.1, its published source in $from"
    elif [ "$from" -ef "$stand_in" ]; then
        glam="$stand_in, a stand-in for glam"
    elif [ -z "${GLAM_SRC:-}" ]; then
        glam="$stand_in, a stand-in for glam, whose published source is not in $from; GLAM_SRC may name another place"
        from=$stand_in
    else
        stop "GLAM_SRC is $from, which has no src/f32/vec3.rs in it: it is the folder of glam 0.30.1, or $stand_in."
    fi
    mkdir -p "$to"
    # One name and version for both, as oracle/Cargo.lock has them. Of glam's features it has the one that is on by default.
    cat >"$new" <<END
[package]
name = "glam"
version = "0.0.0"
edition = "2021"
publish = false

[lib]
path = '$(realpath "$from/src/lib.rs")'
test = false
doctest = false

[features]
default = ["std"]
std = []

[lints.rust]
# the features that are not here
unexpected_cfgs = "allow"
END
    changed "$to/Cargo.toml" "$new"
    rm "$new"
}

# with_digits FROM TO COUNT: makes TO what FROM is, but with its square roots, which are COUNT, taken by oracle/digits.
with_digits() {
    local from=$1 to=$2 count=$3 new=$2.new found
    found=$(grep -o sqrt "$from" | wc -l) || true
    # The trait is named at the end, since a file may begin with attributes of the whole of it.
    { sed 's/\.sqrt()/.digits()/g' "$from" && echo 'use digits::Digits as _;'; } >"$new"
    if [ "$found" != "$count" ] || grep -q sqrt "$new"; then
        stop "$from is to have $count calls of .sqrt(), and no other sqrt: it has $found in all."
    fi
    changed "$to" "$new"
    rm "$new"
}

# Lays the published files out once more, and the stand-in for glam, where oracle/dodgy_3d_digits and oracle/glam_digits have
# them: the same but for the square roots. It is the stand-in in any case, since its one file is all that has to be changed.
lay_out_digits() {
    local from=$built/dodgy_3d to=$built/dodgy_3d_digits vectors=$built/glam_digits
    mkdir -p "$to/src" "$vectors/src"
    with_digits "$from/src/lib.rs" "$to/src/lib.rs" 2
    with_digits "$from/src/linear_programming.rs" "$to/src/linear_programming.rs" 3
    with_digits oracle/glam/src/lib.rs "$vectors/src/lib.rs" 1
    changed "$to/src/simulator.rs" "$from/src/simulator.rs"
    changed "$to/README.md" /dev/null
}

# Builds the programs of oracle/Cargo.toml, offline, and first says which glam the published Rust is compiled over.
build_programs() {
    need_cargo
    lay_out_published
    lay_out_glam
    echo "The published Rust is compiled over $glam."
    cargo build --quiet --release --offline --locked --manifest-path oracle/Cargo.toml --target-dir "$built/cargo"
}

# Sets the command that compiles programs in C.
choose_compiler() {
    compiler=(cc -std=c11 -O2 -Wall -Wextra)
    need cc gcc
}

# Proves and builds the static library, for every x86-64 processor. GUINEACRUMB_NATIVE may name an object or an archive with the
# library's functions that was compiled for this very machine, as oracle/native does; it is then linked instead.
build_library() {
    library=${GUINEACRUMB_NATIVE:-crates/guineacrumb/out/libguineacrumb.a}
    choose_compiler
    mkdir -p "$built"
    if [ -n "${GUINEACRUMB_NATIVE:-}" ]; then
        [ -f "$library" ] || stop "GUINEACRUMB_NATIVE is $library, and there is no such file."
    else
        need_rt "the library" GUINEACRUMB_NATIVE
        quietly "$built/lib.log" env -C crates/guineacrumb rt lib --cpu x86-64
    fi
}

# Builds the server over the static library.
build_server() {
    build_library
    "${compiler[@]}" -Iinclude -o "$built/velocity_server" oracle/velocity_server.c "$library"
    # shellcheck disable=SC2034 # run and bench use it
    server=("$built/velocity_server")
}

# is_x86_64 FILE: whether the file is a program for x86-64, as its ELF header says.
is_x86_64() {
    local header
    header=$(od -An -v -tx1 -N20 "$1" | tr -d ' \n')
    [[ $header == 7f454c46*3e00 ]]
}

# build_program NAME: proves and builds that program, and sets `program` to the command that runs it. The variable
# GUINEACRUMB_NAME, in capitals, may name a file that was built already: GUINEACRUMB_REPLAY, GUINEACRUMB_SPACING_REPORT.
#
# What rt builds is x86-64 code, and asks for that machine's C library. On a machine of another kind such a file, named by the
# variable, runs under an emulator, which finds the library where it stands for programs of the other machine
# (libc6-amd64-cross). One that is not, as it was compiled for this very machine, runs as it is.
build_program() {
    local name=$1 variable=GUINEACRUMB_${1^^} file under=()
    file=${!variable:-crates/$name/out/$name}
    if [ -z "${!variable:-}" ]; then
        need_rt "the program $name" "$variable"
        # rt has no command that builds a program and does not run it
        quietly "$built/$name.log" env -C "crates/$name" rt run -- --help </dev/null
    elif [ "$(uname -m)" != x86_64 ] && is_x86_64 "$file"; then
        need qemu-x86_64 qemu-user
        under=(qemu-x86_64 -L "${QEMU_LD_PREFIX:-/usr/x86_64-linux-gnu}")
    fi
    program=("${under[@]}" "$file")
}

build_replay() {
    build_program replay
    # shellcheck disable=SC2034 # ticks uses it
    replay=("${program[@]}")
}

# say_emulated WHO COMMAND ..: says so where the command is run by an emulator.
say_emulated() {
    [ $# -gt 2 ] || return 0
    echo "$1 runs under an emulator: its times, and the ratios, say nothing about the hardware."
}
