# Sourced by the scripts: progress lines, and what a fresh machine lacks.
: "${tests_began:=$(date +%s)}"
export tests_began
step() { echo "== $* (at $(($(date +%s) - tests_began)) s)"; }

# together COMMAND COMMAND: two lines of shell at the same time; what they print comes in their order. Fails where one does.
together() {
    local second status=0
    mkdir -p target/tests
    bash -euo pipefail -c "$2" >target/tests/second 2>&1 &
    second=$!
    bash -euo pipefail -c "$1" || status=1
    wait "$second" || status=1
    cat target/tests/second
    return "$status"
}

# prove PROGRAM INPUT ARGS..: proves and builds it where that is not done yet, and runs it once on that input; says so, and
# shows what rt said where it fails.
prove() {
    local name=$1 input=$2 said
    shift 2
    [ -x "$root/crates/$name/out/$name" ] || echo "proving and building $name: some minutes" >&2
    said=$( (cd "$root/crates/$name" && rt run -- "$@" <"$input") 2>&1 >/dev/null) || { echo "$said" | tail -20 >&2; return 1; }
}

# need COMMAND..: each is there, or is installed from Debian's packages where that can be done.
need() {
    local command
    for command in "$@"; do
        command -v "$command" >/dev/null && continue
        if [ "$command" != rt ] && command -v apt-get >/dev/null && [ "$(id -u)" = 0 ]; then
            step "installing $command"
            apt-get install -y "$command" >/dev/null && continue
        fi
        echo "$command is not installed; it is needed here" >&2
        exit 1
    done
}
