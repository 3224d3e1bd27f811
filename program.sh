# Sourced by ./trial and ./day, which set `name` and `usage` first: FILE is looked at, and `program`, crates/NAME/out/NAME, is proved and
# linked on first use, and again when a file of the crates has changed.

fail() {
    echo "$name: $1" >&2
    exit 2
}

[ $# -eq 1 ] || fail "usage: ./$name FILE, $usage"
file=$1
[ -e "$file" ] || fail "no such file: $file"
[ ! -d "$file" ] || fail "a directory, not a file: $file"
[ -r "$file" ] || fail "not readable: $file"
[ "$(uname -sm)" = "Linux x86_64" ] || fail "the program runs on Linux on x86-64, and this is $(uname -sm)"

root=$(cd "$(dirname "$(readlink -f "$0")")" && pwd) || fail "the folder of this script cannot be entered"
program=$root/crates/$name/out/$name
built=$root/target/$name.built # as old as the last build
log=$root/target/$name.log

# Whether the program is there, and no file of the crates is newer or has come or gone since.
is_built() {
    [ -x "$program" ] && [ -e "$built" ] && [ -z "$(find "$root/crates.txt" "$root/crates" -name out -prune -o -newer "$built" -print -quit)" ]
}

build() {
    command -v rt >/dev/null || fail "the Rattle kit is needed to build the program, and its command rt is not on the PATH"
    echo "$name: proving and linking crates/$name with what it uses; from nothing this takes many minutes (rt run; $log)" >&2
    mkdir -p "$root/target" || fail "$root/target cannot be made"
    local began=$root/target/$name.began
    touch "$began"
    if ! (cd "$root/crates/$name" && rt run </dev/null) >"$log" 2>&1; then
        rm -f "$built"
        tail -n 5 "$log" >&2
        fail "crates/$name is not proved, so nothing was run; $log has all that rt said"
    fi
    mv "$began" "$built"
}

# Prints what the program prints for FILE. Exit status: 0, or 1 for a refusal.
answer() {
    local answer
    answer=$("$program" <"$file") || fail "$program did not run"
    [ -n "$answer" ] || fail "$program printed nothing"
    printf '%s\n' "$answer"
    case $answer in
    refused*) exit 1 ;;
    esac
}

is_built || build
