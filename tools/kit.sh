# For the tools to source, in the repository's folder: where the Rattle kit is, how crates are proved and built, and how a program is compiled from C.
kit=$(dirname "$(dirname "$(readlink -f "$(command -v rt)")")")
cc=cc cc_packages="gcc libc6-dev"

# Runs a command, and shows what it says only where it fails.
quietly() { # COMMAND WORD..
    said=$("$@" 2>&1 </dev/null) || {
        printf '%s\n' "$said" >&2
        exit 1
    }
}

# How many crates of crates.txt NAME needs, itself included.
needed() { # NAME
    awk -F: -v name="$1" '
        function visit(crate, below, k, n) {
            if (!(crate in needs) || seen[crate]++) return
            total++
            n = split(needs[crate], below, " ")
            for (k = 1; k <= n; k++) visit(below[k])
        }
        /^[a-z]/ { split($1, word, " "); needs[word[1]] = $2 }
        END { visit(name); print total + 0 }' crates.txt
}

# Whether a file was built from the crates as they are: none of their files is newer.
is_built() { # FILE
    [ -e "$1" ] && [ -z "$(find crates.txt crates -name out -prune -o -type f -newer "$1" -print | head -n 1)" ]
}

# Proves and builds a crate, where that has not been done, and says on standard error which crates rt is at: nothing where there is nothing to do, all
# that rt said where it fails. The file is what is built, and COMMAND is rt's: run, which also runs a program, here on no input, or lib.
prove() { # NAME FILE COMMAND
    is_built "$2" && return 0
    echo "$(basename "$0"): proving $1, $(needed "$1") crates in all: minutes, once" >&2
    said=$(mktemp) failed=
    tell "$said" &
    teller=$!
    trap 'kill $teller 2>/dev/null; rm "$said"; exit 1' HUP INT TERM
    (cd "crates/$1" && rt "$3") >"$said" 2>&1 </dev/null || failed=yes
    kill $teller 2>/dev/null || :
    wait $teller 2>/dev/null || :
    trap - HUP INT TERM
    [ -z "$failed" ] && [ -e "$2" ] || {
        cat "$said" >&2
        rm "$said"
        exit 1
    }
    rm "$said"
    touch "$2" # rt knows by sums that nothing has changed, and leaves it as it was
}

# Says which crate rt is at, whenever it is another.
tell() { # LOG
    before=
    while sleep 2 </dev/null >/dev/null 2>&1 && kill -0 $$ 2>/dev/null; do
        now=$(sed -n 's/^checked \([a-z0-9_]*\)::.*/\1/p' "$1" | tail -n 1)
        [ -z "$now" ] || [ "$now" = "$before" ] || echo "$(basename "$0"): now $now" >&2
        before=$now
    done
}

# Where a program is, once it is built.
place_of() { # NAME
    echo "crates/$1/out/$1"
}

prove_program() { # NAME
    prove "$1" "$(place_of "$1")" run
}

# The archives for C, target/staticlib/libexports.a, libname_exports.a and libpanel_exports.a: each is that of the crate whose functions have the C
# names, exports_c and so on.
exported='exports name_exports panel_exports'
archives() {
    mkdir -p target/staticlib
    for crate in $exported; do
        made=crates/${crate}_c/out/lib${crate}_c.a
        prove ${crate}_c $made lib
        cmp -s $made target/staticlib/lib$crate.a || cp $made target/staticlib/lib$crate.a
    done
}

# Compiles examples/PROGRAM.c with the archives to target/c/PROGRAM.
link_c() { # PROGRAM..
    want $cc $cc_packages
    archives
    mkdir -p target/c
    for program in "$@"; do
        $cc -std=c11 -Wall -Wextra -Wpedantic -Werror -O2 -static -Iinclude -o "target/c/$program" "examples/$program.c" $(for crate in $exported; do echo target/staticlib/lib$crate.a; done)
    done
}

# Installs Debian packages, where root has apt-get; whether it could.
install_packages() { # PACKAGE..
    [ "$(id -u)" = 0 ] && command -v apt-get >/dev/null || return 1
    echo "installing $*" >&2
    install="apt-get -o DPkg::Lock::Timeout=60 install -y --no-install-recommends"
    $install "$@" >/dev/null 2>&1 || { apt-get update >/dev/null 2>&1 && $install "$@" >/dev/null; }
}

# Installs the packages of a command that is missing; where that cannot be, names them and ends with 77.
want() { # COMMAND PACKAGE..
    wanted=$1
    shift
    command -v "$wanted" >/dev/null || { install_packages "$@" && command -v "$wanted" >/dev/null; } || {
        echo "$(basename "$0"): there is no $wanted. Debian has it: apt-get install $*" >&2
        exit 77
    }
}
