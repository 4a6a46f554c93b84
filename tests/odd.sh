# What the tests of odd files share; sourced with the name of a program, which it builds.
program="$(bash "$(dirname "${BASH_SOURCE[0]}")/program.sh" "$1")"
room="$(mktemp -d)"
trap 'rm -rf "$room"' EXIT
fails=0

# case_ NAME EXPECTED: runs the program in the folder NAME; its status must be 0, and what it prints EXPECTED
case_() {
    local got
    if ! got="$(cd "$room/$1" && "$program")"; then
        echo "$1: the program ended with another status than 0"
        fails=$((fails + 1))
    elif [ "$got" != "$2" ]; then
        printf '%s: expected\n%s\ngot\n%s\n' "$1" "$2" "$got"
        fails=$((fails + 1))
    fi
}

all_as_expected() {
    [ "$fails" = 0 ] || exit 1
    echo "odd files: all as expected"
}
