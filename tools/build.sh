# Sourced by ./console, ./report and bench/report, which set `root` to the repository's root.

# build NAME: proves and builds the program crates/NAME/out/NAME where it is missing or older than its sources. `rt run` makes it, and runs it on no input.
build() {
    local folder=$root/crates/$1 log=$root/target/$1.log
    local program=$folder/out/$1
    if [ -x "$program" ] && [ -z "$(find "$root/crates" "$root/crates.txt" -path "$root/crates/*/out" -prune -o -type f -newer "$program" -print -quit)" ]; then
        return
    fi
    echo "$1: proving and building; this takes minutes the first time" >&2
    mkdir -p "$root/target"
    # The line is printed where all is proved and built; behind it the status is the program's own.
    (cd "$folder" && rt run </dev/null) >"$log" 2>&1 || true
    if ! grep -q "^rt: running out/$1;" "$log"; then
        tail -n 20 "$log" >&2
        exit 1
    fi
    touch -c "$program"
}
