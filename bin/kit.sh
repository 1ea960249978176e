# kit.sh: what the commands of this repository share. It is read by them, not run; a command has set `self` to its own path.
# It gives `root`, the repository; find_kit gives `kit` and `tools`, the Rattle kit and its compilers.
# shellcheck shell=sh disable=SC2034,SC2154
root=${self%/*/*}
command=${self##*/}

# A closed standard error would otherwise become the number of the next file that is opened.
(: 5>&2) || exec 2>/dev/null

say() { printf '%s: %s\n' "$command" "$*" >&2; }
fail() { say "$@"; exit 2; }

# The comment at the command's top.
help() { sed -n '2,${/^#/!q;s/^# \{0,1\}//p;}' "$self"; }
usage() { help >&2; exit 2; }

# Takes the first word if it is an option that every command has: `taken` is then how many words -- was, 1 or 0.
options() {
    taken=0
    case ${1-} in
        -h | --help) help | cat || exit 2; exit 0 ;;
        --version) echo "$command $(cat "$root/VERSION")" | cat || exit 2; exit 0 ;;
        --) taken=1 ;;
        -?*) say "there is no option $1"; usage ;;
    esac
}

# The kit stands above the command rt; where rt only calls it, rt says where its first page is.
find_kit() {
    rt=$(command -v rt) || fail "the Rattle kit's command rt is not on the PATH"
    kit=$(dirname "$(readlink -f "$rt")")/..
    if [ ! -d "$kit/toolchain" ]; then
        page=$(rt doc </dev/null) || fail "$rt doesn't say where the Rattle kit stands"
        kit=${page%/*}
    fi
    kit=$(cd "$kit" && pwd -P) || exit 2
    tools=$kit/toolchain
    [ -d "$tools" ] || fail "the Rattle kit at $kit has no toolchain"
}

# The crates that crates.txt lists and that have the file src/$1: main.rt for programs, lib.rt for libraries.
crates_with() {
    sed -n 's/^[[:blank:]]*\([A-Za-z_][A-Za-z0-9_]*\)[^:#]*:.*/\1/p' "$root/crates.txt" | while read -r crate; do
        [ ! -f "$root/crates/$crate/src/$1" ] || echo "$crate"
    done
}

# Refuses the name $1 if it is none of them; $2 says what they are.
must_be_one() {
    for crate in $(crates_with "$3"); do [ "$crate" != "$1" ] || return 0; done
    fail "$1 is no $2 of this repository; there are: $(crates_with "$3" | paste -s -d ' ' -)"
}

# The crates of this repository that $1 is made of, itself among them.
made_of() {
    WANTED=$1 awk '
        function visit(n,    a, k) { if ((n in deps) && !seen[n]++) { print n; for (k = split(deps[n], a, " "); k > 0; k--) visit(a[k]) } }
        { sub(/#.*/, "") }
        i = index($0, ":") { split(substr($0, 1, i - 1), head); deps[head[1]] = substr($0, i + 1) }
        END { visit(ENVIRON["WANTED"]) }' "$root/crates.txt"
}

# Whether $1 is a file that is newer than all that the crate $2 is made of.
is_current() {
    [ -f "$1" ] || return 1
    made=$1 crates=$(made_of "$2")
    set -- "$root/crates.txt"
    for crate in $crates; do
        for part in src specs proofs; do
            [ ! -d "$root/crates/$crate/$part" ] || set -- "$@" "$root/crates/$crate/$part"
        done
    done
    [ -z "$(find "$@" -newer "$made" | head -n 1)" ]
}

# What an input is called in messages; - is standard input.
input_name() { if [ "$1" = - ]; then echo 'standard input'; else printf '%s\n' "$1"; fi; }

# An input or output that can't be used is told in the form that the programs have.
cannot() { printf '%s: %s\n' "$1" "$2" >&2; return 1; }

# Whether an input can be opened, told if not. A pipe with a name can be opened but once.
can_open() {
    if [ "$1" = - ]; then
        (: 5<&0) 2>/dev/null || cannot 'standard input' 'Bad file descriptor'
    elif [ -d "$1" ]; then
        cannot "$1" 'Is a directory'
    elif [ ! -p "$1" ]; then
        why=$(LC_ALL=C dd if="$1" count=0 2>&1) || cannot "$1" "${why##*: }"
    fi
}
