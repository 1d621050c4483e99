# Read by the other tools, with `root` set: where the kit is, and what crates.txt says.
# shellcheck shell=sh disable=SC2034
kit=$(dirname "$(dirname "$(readlink -f "$(command -v rt)")")")
tools=$kit/toolchain

# uses NAME: the libraries that the crate's line of crates.txt names
uses() { sed -n "s/#.*//; s/^$1\( *staticlib\)\{0,1\} *: *//p" "${root:?}/crates.txt"; }

# below NAME ..: the libraries of this repository that these crates stand on
below() {
    set -- "$(for of; do uses "$of"; done)" ''
    while [ -n "$1" ]; do
        next=''
        for it in $1; do
            case " $2 " in *" $it "*) continue ;; esac
            [ -d "$root/crates/$it/src" ] || continue
            set -- "$1" "$2 $it"
            next="$next $(uses "$it")"
        done
        set -- "$(echo $next)" "$2"
    done
    echo $2
}

# kit_below NAME ..: the libraries of the kit that these crates and those below them name, and what these use
kit_below() {
    found='' todo="std $(for of in "$@" $(below "$@"); do uses "$of"; done)"
    while [ -n "$todo" ]; do
        next=''
        for it in $todo; do
            case " $found " in *" $it "*) continue ;; esac
            [ -f "$kit/rlibs/$it.rlib/format" ] && [ ! -d "$root/crates/$it/src" ] || continue
            found="$found $it"
            next="$next $(sed -n 's/^dep //p' "$kit/rlibs/$it.rlib/format")"
        done
        todo=$(echo $next)
    done
    echo $found
}

# mirror DIR SCRIPT: the kit's toolchain as DIR, with the lines of SCRIPT as its clang
mirror() {
    mkdir -p "$1/bin"
    ln -s "$tools/lib" "$1/lib"
    for it in "$tools"/bin/*; do ln -s "$it" "$1/bin/"; done
    rm "$1/bin/clang"
    printf '#!/bin/sh\n%s\n' "$2" >"$1/bin/clang"
    chmod +x "$1/bin/clang"
}

# crate_words NAME DIR: the words of the kit's check for the crate whose src/, specs/ and proofs/ stand in DIR, over the built libraries of `crates` (this
# repository's own folder crates/ unless told), one a line
crate_words() {
    name=$1 places=${crates:-$root/crates}
    [ -f "$2/src/main.rt" ] && file=src/main.rt || file=src/lib.rt
    printf '%s\n' --crate-name "$name" "$file" --extern "std=$kit/rlibs/std.rlib" -L "dependency=$kit/rlibs"
    for it in $(uses "$name"); do
        if [ -d "$root/crates/$it/src" ]; then printf '%s\n' --extern "$it=$places/$it/out/rlib/$it.rlib"
        elif [ "$it" != std ]; then printf '%s\n' --extern "$it=$kit/rlibs/$it.rlib"; fi
    done
    for it in $(below "$name"); do printf '%s\n' -L "dependency=$places/$it/out/rlib"; done
    printf '%s\n' --antt-project "$kit/rattle/logic/antt-project.json" --logic-built "$kit/logic_built" --links "$name="
    case $(sed -n "s/#.*//; s/^$name\( *staticlib\)\{0,1\} *:.*/\1/p" "$root/crates.txt") in
    *staticlib) printf '%s\n' --crate-type staticlib ;;
    esac
}
