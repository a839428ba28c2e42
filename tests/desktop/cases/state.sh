# hsc state.

keep two-events.trace try 0 state two-events.trace
prints << END
after all 2 events
              staged      active
PFN                0           0
MOD                0           0
HIP       2147483647           0
LOP      -2147483648           0
OVF       2147483647           0
UNF      -2147483648           0
OMB             0000        0000
HPO             0000        0000
LPO             0000        0000
mode     none, nothing is loaded
ACC      7
outputs  0003
ER       0, no error
flags    00000780 LPM HPM UFM OFM
inputs   none
running  none
waiting  none
shown    none
END
cp out all
try 0 state two-events.trace 2
same out all

# Before an event the state is what the snapshot there has; the table is not looked at.
cp two-events.trace false.trace
over false.trace $((48 + 68 + 52)) 8
for place in 0 1; do
    try 0 show two-events.trace "$place"
    tail -n +2 out > shown
    keep false.trace try 0 state false.trace "$place"
    verdict "the place is told" [ "$(head -n 1 out)" = "before event $place of 2" ]
    tail -n +2 out > told
    same told shown
done

# Between snapshots: 5000 events, and no snapshot but the first two.
{ yes 'ACC 1' | head -n 4999; echo 'ACC 2'; } > long.txt
try 0 build long.txt 4096 long.trace
try 0 state long.trace 4999
says out 'ACC      1'
try 0 state long.trace
says out 'ACC      2'

for place in 3 4294967296 18446744073709551615; do
    try 2 state two-events.trace "$place"
    says err "two-events.trace: there is no event $place, only events 0 to 1"
done

# An event that is not legal matters from the place after it on.
over false.trace 36 10
try 0 state false.trace 1
keep false.trace refuse 5 1 state false.trace 2
keep false.trace refuse 5 1 state false.trace
