# What the names on the command line may stand for.

# each FILE: every command fails on it.
each() {
    for each_words in "info $1" "events $1" "show $1 0" "state $1" "draw $1" "check $1" "replay $1" \
        "mend $1 0 one-event.patch" "encode $1 out.patch" "build $1 1 out.trace" "compare $1 two-events.trace" "compare two-events.trace $1"; do
        try 2 $each_words
        says err "hsc: $1: "
        verdict "hsc $each_words: nothing on standard output" [ ! -s out ]
    done
}

mkdir folder
mkfifo pipe
ln -s nowhere dangling
ln -s loop loop
for file in missing folder pipe dangling loop /dev/null /dev/full two-events.trace/x; do
    each "$file"
done
try 2 info ''

# A link is followed and stays; the target keeps its mode.
cp two-events.trace folder/target.trace
chmod 640 folder/target.trace
ln -s folder/target.trace link.trace
ln -s link.trace folder/../chain.trace
try 0 mend chain.trace 0 one-event.patch
verdict 'the links stay' [ "$(readlink chain.trace)/$(readlink link.trace)" = link.trace/folder/target.trace ]
verdict 'the target is changed' [ "$(head -c 29 folder/target.trace | tail -c 1 | od -An -tu1 | tr -d ' ')" = 9 ]
verdict 'the mode stays' [ "$(stat -c %a folder/target.trace)" = 640 ]
verdict 'no temporary file stays' no_temporary

# A folder that is not this one, from the root.
try 0 replay "$(pwd)/folder/target.trace"

# Files and a folder that a user who is not root may not write or read.
mkdir -m 777 open shut
cp two-events.trace open/reader.trace
cp two-events.trace open/hidden.trace
{ head -c 48 two-events.trace; zeros $((3 * 68)); } > shut/two-events.trace
chmod 444 open/reader.trace
chmod 000 open/hidden.trace
chmod 666 shut/two-events.trace
chmod 555 shut
if [ "$nobody" != false ]; then
    user=$nobody
    try 0 check open/reader.trace
    try 2 replay open/reader.trace
    says err 'cannot be opened: Permission denied'
    same open/reader.trace two-events.trace
    try 2 mend open/reader.trace 0 one-event.patch
    same open/reader.trace two-events.trace
    try 2 info open/hidden.trace
    says err 'cannot be opened: Permission denied'
    try 2 mend open/reader.trace 0 open/hidden.trace
    keep shut/two-events.trace try 2 replay shut/two-events.trace
    says err 'no temporary file can be made in its folder: Permission denied'
    user=
else
    skip 'permissions need another user'
fi
chmod 755 shut

# The owner, kept by root and told by another user.
if [ -n "$nobody" ] && [ "$nobody" != false ]; then
    cp two-events.trace owned.trace
    chown 65534:65533 owned.trace
    chmod 604 owned.trace
    try 0 mend owned.trace 0 one-event.patch
    verdict 'owner, group and mode stay' [ "$(stat -c %u:%g:%a owned.trace)" = 65534:65533:604 ]

    cp two-events.trace open
    chmod 666 open/two-events.trace
    user=$nobody
    try 0 mend open/two-events.trace 0 one-event.patch
    user=
    says err 'the owner is not kept: Operation not permitted'
    says err 'the group is not kept: Operation not permitted'
    verdict 'the mode stays where the owner does not' [ "$(stat -c %u:%a open/two-events.trace)" = 65534:666 ]
else
    skip 'owners need root and another user'
fi
