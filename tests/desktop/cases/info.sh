# hsc info.

keep two-events.trace try 0 info two-events.trace
prints << END
bytes 252
events 2, from byte 24
snapshots 3, from byte 48
spacing 1
kind 0, blank: 0
kind 1, input sample: 0
kind 2, staged write: 0
kind 3, programming device: 0
kind 4, flag write: 0
kind 5, ACC: 1
kind 6, preset load: 0
kind 7, routine done: 0
kind 8, enter run: 0
kind 9, outputs: 1
gaps: 0
END

# Gaps at the start, in the middle and at the end; the stamp of a blank is free.
{
    header 7 3
    event 0 0 0
    event 0 0 0 17
    event 1 0 15
    event 0 0 0
    event 7 0 0
    event 8 0 0
    event 0 0 0
    zeros $((3 * 68))
} > gaps.trace
try 0 info gaps.trace
says out 'kind 0, blank: 4'
says out 'spacing 3'
verdict 'the gaps' [ "$(grep gap out)" = 'gaps: 3
longest gap: events 0 to 1, 2 blank
gap: events 0 to 1, 2 blank
gap: events 3 to 3, 1 blank
gap: events 6 to 6, 1 blank' ]

{ header 2 4096; event 0 0 0; event 0 0 0; zeros 68; } > blank.trace
try 0 info blank.trace
verdict 'one gap' [ "$(grep gap: out)" = 'longest gap: events 0 to 1, 2 blank
gap: events 0 to 1, 2 blank' ]

{ header 0 1; snapshot 0 0; } > no-events.trace
try 0 info no-events.trace
says out 'events 0, from byte 24'
says out 'gaps: 0'
verdict 'no gap' [ "$(grep -c gap: out)" -eq 0 ]

# Blanks by turns: a few lines, and every gap on request. The longest is the first of its length.
{ event 5 0 1; event 0 0 0; } > many
for i in 1 2 3 4 5 6 7 8 9 10 11; do
    cat many many > more && mv more many
done
{ header 4098 4096; cat many; event 0 0 0; event 5 0 1; zeros $((2 * 68)); } > many.trace
try 0 info many.trace
verdict 'the first gaps of many' [ "$(grep -e gap out)" = 'gaps: 2048
longest gap: events 4095 to 4096, 2 blank
gap: events 1 to 1, 1 blank
gap: events 3 to 3, 1 blank
gap: events 5 to 5, 1 blank
gap: events 7 to 7, 1 blank
gap: events 9 to 9, 1 blank
and 2043 more gaps, which --gaps prints' ]
try 0 info --gaps many.trace
verdict 'every gap is printed' [ "$(grep -c '^gap:' out)" -eq 2048 ]
says out 'gap: events 4095 to 4096, 2 blank'
verdict 'no more are told of' [ "$(grep -c more out)" -eq 0 ]
