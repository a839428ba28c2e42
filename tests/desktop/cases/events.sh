# hsc events.

keep two-events.trace try 0 events two-events.trace
prints << END
0  ACC 7
1  outputs 0x0003
END

# One event of each kind, with their stamps.
{
    header 11 4
    event 0 0 0 1
    event 1 0 5 4294967295
    event 1 0 0
    event 2 1 400
    event 3 3 15
    event 4 5 1
    event 5 0 -2147483648
    event 6 0 0
    event 7 0 0
    event 8 0 0
    event 9 0 65535
    zeros $((3 * 68))
} > kinds.trace
keep kinds.trace try 0 events kinds.trace
prints << END
0  blank
1  inputs 0 2
2  inputs none
3  stage HIP 400
4  device OMB 0x000f
5  flag CE 1
6  ACC -2147483648
7  load
8  done
9  run
10  outputs 0xffff
END
try 0 events kinds.trace 0 2 --stamps
prints << END
0  blank  stamp 1
1  inputs 0 2  stamp 4294967295
END
try 0 events --bare kinds.trace 1 2
prints << END
inputs 0 2
inputs none
END

# The run ends where the image does; the place after the last event begins an empty one.
try 0 events kinds.trace 9
prints << END
9  run
10  outputs 0xffff
END
try 0 events kinds.trace 10 18446744073709551615
prints << END
10  outputs 0xffff
END
for words in 'kinds.trace 11' 'kinds.trace 4 0'; do
    try 0 events $words
    verdict "hsc events $words: no line" [ ! -s out ]
done
for place in 12 4294967296 18446744073709551615; do
    try 2 events kinds.trace "$place"
    says err "kinds.trace: there is no event $place, only events 0 to 10"
done

# Only the events of the run are looked at; nothing is printed where one of them is not legal.
over kinds.trace $((24 + 3 * 12)) 10
refuse 5 3 events kinds.trace
refuse 5 3 events kinds.trace 2 2
try 0 events kinds.trace 4
try 0 events kinds.trace 0 3
