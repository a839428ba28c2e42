# The script ./office, over a kit that proves at once and counts how often.

mkdir -p tree/crates/office bin
cp "$root/office" tree
echo 'one: two' > tree/crates.txt
echo 'fn main() {}' > tree/crates/office/main.rt
cat > bin/rt << 'END'
#!/bin/sh
echo "crates/${PWD##*/} $*" >> "$COUNT"
[ ! -e ../../refuse ] || exit 1
mkdir -p out
printf '#!/bin/sh\ncat > /dev/null\nprintf "%%s" "$LINE"\n' > out/office
chmod 755 out/office
END
chmod 755 bin/rt
COUNT=$(pwd)/count
LINE='events 2 snapshots 3
'
export COUNT LINE

# office STATUS TIMES COMMAND..: runs the script so; the kit was asked so often.
office() {
    office_want=$1 office_times=$2
    shift 2
    : > count
    status=0
    PATH=$(pwd)/bin:$PATH "$@" < two-events.trace > out 2> err || status=$?
    verdict "$*: exit status $status" [ "$status" -eq "$office_want" ]
    verdict "$*: proved so often" [ "$(grep -c -x 'crates/office run' count)" -eq "$office_times" ]
}

# age: the program is older than what is changed from now on.
age() {
    touch -d '1 hour ago' tree/crates tree/crates/* tree/crates/*/* tree/crates.txt
    touch -d '1 minute ago' tree/target/bin/office
}

# The first use proves; the next one does not.
office 0 1 tree/office
says out 'events 2 snapshots 3'
says err 'proving and building'
age
office 0 0 tree/office
verdict 'nothing is told of a proof' [ ! -s err ]

# A crate that was changed, added or removed, and the list of crates.
touch tree/crates/office/main.rt
office 0 1 tree/office
age
echo > tree/crates/office/new.rt
office 0 1 tree/office
age
rm tree/crates/office/new.rt
office 0 1 tree/office
age
touch tree/crates.txt
office 0 1 tree/office

# What is not proved is not run, however old.
age
touch tree/crates.txt tree/refuse
office 1 1 tree/office
verdict 'no line of a program that is not proved' [ ! -s out ]
rm tree/refuse
office 0 1 tree/office
age

# Through links, of any kind, and from the path.
ln -s tree/office link
ln -s "$(pwd)/link" bin/linked-office
office 0 0 ./link
office 0 0 linked-office
says out 'events 2 snapshots 3'

# The lines of document 01 are no failure.
LINE='refused 4 at 0
'
office 0 0 tree/office
prints << END
refused 4 at 0
END

# Nothing written: by the program, to a full disk, to no stream.
LINE=
office 2 0 tree/office
says err 'the program wrote no line'
LINE='too long
'
status=0
tree/office < two-events.trace > /dev/full 2> err || status=$?
verdict "a full disk: exit status $status" [ "$status" -eq 2 ]
says err 'the line could not be written'
status=0
tree/office < two-events.trace >&- 2> err || status=$?
verdict "no stream: exit status $status" [ "$status" -eq 2 ]
unset COUNT LINE
