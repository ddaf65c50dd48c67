# What the commands of this repository share. A script sets `here` to the top of the repository, and reads this file.

# The status where a command could not begin its work. The program itself never ends with it.
CANNOT=125

# The program, and a file whose time is when the build that made it began to read the sources.
program=$here/crates/cpsolve/out/cpsolve
began=$program.began

# Says why nothing was done, in one line: stop STATUS WORDS
stop() {
    echo "$(basename "$0"): $2" >&2
    exit "$1"
}

# Prints the comment at the script's head and ends, where the word asks for help.
help_if() {
    case $1 in
    -h | --help)
        sed -n '2,/^[^#]/{/^$/q;s/^# \{0,1\}//p;}' "$0"
        exit 0
        ;;
    esac
}

# Refuses any word, but for one that asks for help.
take_no_words() {
    [ $# -eq 0 ] && return
    help_if "$1"
    stop 2 "takes no word $1: $0 --help says what it does"
}

# Stops where a command is missing.
need() {
    for command; do
        command -v "$command" >/dev/null && continue
        case $command in
        rt) stop $CANNOT "rt is missing: install the Rattle kit and put its folder bin on the PATH" ;;
        *) stop $CANNOT "$command is missing: install it, and put it on the PATH" ;;
        esac
    done
}

# Says why the program that is built does not count, and nothing where it does.
#
# An edit is noticed by the time of last change (ctime) of each file in src/ and specs/ of the program's crates, of
# crates.txt and of HANDLES, so a file that is moved or copied into place counts however old it is. A file that is
# removed does not count by itself, but what named it has to be edited too. Proofs do not count: no edit of one changes
# the program, or what was proved of it. Neither do tests, nor another toolchain.
lack_of_program() {
    [ -x "$program" ] || { echo "no proved program is built" && return; }
    [ -e "$began" ] || { echo "the program does not tell when it was built" && return; }
    CDPATH='' cd "$here" || exit 1
    find crates/*/src crates/*/specs crates.txt HANDLES -path 'crates/*_tests/*' -prune -o \
        -type f -cnewer "$began" -printf '%p is newer than the program\n' -quit ||
        echo "find does not tell whether a source is newer than the program"
}
