# Every command block of the README files, in order, in a copy of the tree: each command prints what stands below it. Three
# dots stand for any output.

# transcript FILE: the lines of its blocks, without their indent; a C program is none.
transcript() {
    awk '/^```/ { inside = !inside } !inside && sub(/^    /, "")' "$1"
}

# begin_with_commands FILE: no block begins with anything else.
begin_with_commands() {
    awk '/^```/ { inside = !inside } !inside && /^    / && before !~ /^    / && !/^    \$ / { exit 1 } { before = $0 }' "$1"
}

# program FILE: its C program.
program() {
    awk '/^```/ { inside = /^```c/; next } inside' "$1"
}

# is_built: what the command runs is there.
is_built() {
    case $1 in
    ./office*) [ -x tree/target/bin/office ] ;;
    esac
}

# follow FOLDER COMMAND: runs it and compares what it prints with the lines in wanted.
follow() {
    if ! is_built "$2"; then
        skip "$2 is not built"
        return
    fi
    (cd "$1" && PATH=$work/readme/tree/target/desktop:$PATH && eval "$2") < /dev/null > out 2>&1
    follow_status=$?
    verdict "$2: exit status $follow_status" [ "$follow_status" -eq 0 ]
    [ "$(cat wanted)" = ... ] || verdict "$2: its output" cmp -s out wanted
}

# follow_file FOLDER: every command of its README.md; there are some.
follow_file() {
    { transcript "$1/README.md"; echo '$ true'; } > lines
    verdict "$1/README.md has commands" [ "$(grep -c '^\$' lines)" -gt 4 ]
    verdict "every block of $1/README.md begins with a command" begin_with_commands "$1/README.md"
    command=true
    : > wanted
    while IFS= read -r line; do
        case $line in
        '$ '*)
            follow "$1" "$command"
            command=${line#??}
            : > wanted
            ;;
        *) printf '%s\n' "$line" >> wanted ;;
        esac
    done < lines
}

if [ -n "$LDLIBS" ]; then
    skip 'the README files link the proved archive alone'
else
    mkdir -p tree/target/bin tree/target/staticlib
    # without what rt keeps in out/, which can be some gigabytes
    (cd "$root" && tar -cf - --exclude='crates/*/out' Makefile README.md crates crates.txt desktop examples hsc.pc.in include man office) |
        tar -xf - -C tree
    cp "$archive" tree/target/staticlib/libhsc.a
    [ ! -x "$root/target/bin/office" ] || cp "$root/target/bin/office" tree/target/bin/office
    program tree/README.md > tree/mend_one.c
    follow_file tree
    follow_file tree/examples
fi
