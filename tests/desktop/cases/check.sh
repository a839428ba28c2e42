# hsc check.

keep two-events.trace try 0 check two-events.trace
prints << END
true: all 3 snapshots
END

# Snapshot 0 is compared too; the last one as well.
cp two-events.trace first.trace
over first.trace $((48 + 52)) 1
keep first.trace try 3 check first.trace
prints << END
not true: snapshot 0 differs first, 1 of 3 differ
  ACC: stored 1, replayed 0
END
cp two-events.trace last.trace
over last.trace $((48 + 2 * 68 + 64)) 1
keep last.trace try 3 check last.trace
prints << END
not true: snapshot 2 differs first, 1 of 3 differ
  inputs: stored 1, replayed 0
END
{ head -c 48 two-events.trace; snapshot 0 0; zeros $((2 * 68)); } > two.trace
try 3 check two.trace
prints << END
not true: snapshot 1 differs first, 2 of 3 differ
  staged HIP: stored 0, replayed 2147483647
  staged LOP: stored 0, replayed -2147483648
  staged OVF: stored 0, replayed 2147483647
  staged UNF: stored 0, replayed -2147483648
  ACC: stored 0, replayed 7
  flags: stored 00000000, replayed 00000780, different: LPM HPM UFM OFM
END
verdict 'the verdict is no message' [ ! -s err ]
# The last bytes of one snapshot and the first of the next.
cp two-events.trace beside.trace
over beside.trace $((48 + 2 * 68 - 2)) -1
try 3 check beside.trace
prints << END
not true: snapshot 1 differs first, 2 of 3 differ
  first waiting: stored 255, replayed 0
  second waiting: stored 255, replayed 0
  the stored snapshot is not well formed
END

# differs PLACE TEXT: with 4 bytes of -1 from this place of snapshot 1, these fields differ.
differs() {
    cp two-events.trace field.trace
    over field.trace $((48 + 68 + $1)) -1
    try 3 check field.trace
    says out "not true: snapshot 1 differs first, 1 of 3 differ"
    verdict "the fields from byte $1" [ "$(sed 1d out)" = "$2" ]
}

ill='  the stored snapshot is not well formed'
differs 0 '  staged PFN: stored -1, replayed 0
  staged MOD: stored -1, replayed 0'
differs 4 '  staged HIP: stored -1, replayed 2147483647'
differs 8 '  staged LOP: stored -1, replayed -2147483648'
differs 12 '  staged OVF: stored -1, replayed 2147483647'
differs 16 '  staged UNF: stored -1, replayed -2147483648'
differs 20 '  staged OMB: stored ffff, replayed 0000
  staged HPO: stored ffff, replayed 0000'
differs 24 "  staged LPO: stored ffff, replayed 0000
  active PFN: stored -1, replayed 0
$ill"
differs 28 "  active MOD: stored -1, replayed 0
  active HIP: stored 65535, replayed 0
$ill"
differs 34 "  active LOP: stored -1, replayed 0
$ill"
differs 38 "  active OVF: stored -1, replayed 0
$ill"
differs 42 "  active UNF: stored -1, replayed 0
$ill"
differs 46 "  active OMB: stored ffff, replayed 0000
  active HPO: stored ffff, replayed 0000
$ill"
differs 50 "  active LPO: stored ffff, replayed 0000
  ACC: stored 65535, replayed 7
$ill"
differs 52 '  ACC: stored -1, replayed 7'
differs 56 "  outputs: stored ffff, replayed 0000
  ER: stored 65535, replayed 0
$ill"
differs 60 "  flags: stored ffffffff, replayed 00000780, different: UIE UIL FE AS ED CE SP LPI HPI UFI OFI DIR UF OF MD loaded \
bits that are no flag
$ill"
differs 64 "  inputs: stored 255, replayed 0
  running: stored 255, replayed 0
  first waiting: stored 255, replayed 0
  second waiting: stored 255, replayed 0
$ill"

# Several files: each is told, and a failure goes before a refusal, a refusal before a table that is not true.
head -c 251 two-events.trace > cut.trace
try 0 check two-events.trace two-events.trace
prints << END
two-events.trace: true: all 3 snapshots
two-events.trace: true: all 3 snapshots
END
try 3 check two-events.trace first.trace two-events.trace
prints << END
two-events.trace: true: all 3 snapshots
first.trace: not true: snapshot 0 differs first, 1 of 3 differ
  ACC: stored 1, replayed 0
two-events.trace: true: all 3 snapshots
END
try 1 check first.trace cut.trace two-events.trace
says err 'cut.trace: refused 4 at 0'
says out 'two-events.trace: true: all 3 snapshots'
try 2 check missing.trace cut.trace first.trace
says err 'missing.trace: cannot be opened'
says err 'cut.trace: refused 4 at 0'
says out 'first.trace: not true'

# A table that was made before a load with one of bits 12 to 15 in OMB was rejected: the first snapshot that differs is told with its
# fields. A mend from it is refused, since it is not well formed, and a replay makes the table anew.
{
    header 4 3
    event 3 1 3
    event 3 3 8193
    event 4 6 1
    event 5 0 7
    snapshot 0 0
    numbers 2 3 0
    numbers 4 2147483647 -2147483648 2147483647 -2147483648
    numbers 2 8193 0 0
    numbers 2 3 0
    numbers 4 2147483647 -2147483648 2147483647 -2147483648
    numbers 2 8193 0 0
    number 4 0
    numbers 2 0 0
    number 4 526272
    numbers 1 0 0 0 0
} > before.trace
keep before.trace try 3 check before.trace
prints << END
not true: snapshot 1 differs first, 1 of 2 differ
  active PFN: stored 3, replayed 0
  active HIP: stored 2147483647, replayed 0
  active LOP: stored -2147483648, replayed 0
  active OVF: stored 2147483647, replayed 0
  active UNF: stored -2147483648, replayed 0
  active OMB: stored 2001, replayed 0000
  ER: stored 0, replayed 6
  flags: stored 000807c0, replayed 000007d0, different: ED loaded
  the stored snapshot is not well formed
END
keep before.trace refuse 6 1 mend before.trace 3 one-event.patch
try 0 replay before.trace
try 0 check before.trace
try 0 mend before.trace 3 one-event.patch
try 0 show before.trace 1
says out 'ER       6, OMB has bits of 12 to 15, which are no outputs'

# A table that was made when a cause that waits already was added, and lost where two waited: an auger rocks over its high preset. After
# 20 events the preset stood in both waiting places, and UIL was set.
{
    printf '%s\n' 'device PFN 3' 'device MOD 2' 'stage HIP 1' 'flag FE 1' 'flag UIE 1' 'flag CE 1' 'flag SP 1' 'inputs 0'
    for _ in 1 2 3; do
        printf '%s\n' 'inputs none' 'inputs 0 1' 'inputs none' 'inputs 0'
    done
    echo 'ACC 7'
} > rocking.txt
try 0 build rocking.txt 10 rocking.trace
cp rocking.trace before.trace
over before.trace $((24 + 21 * 12 + 2 * 68 + 60)) 563175 33686017
keep before.trace try 3 check before.trace
prints << END
not true: snapshot 2 differs first, 1 of 3 differ
  flags: stored 000897e7, replayed 000897e5, different: UIL
  second waiting: stored 2, replayed 0
  the stored snapshot is not well formed
END
keep before.trace refuse 6 2 mend before.trace 20 one-event.patch
try 0 replay before.trace
same before.trace rocking.trace
try 0 check before.trace
try 0 mend before.trace 20 one-event.patch
