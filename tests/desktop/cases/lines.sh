# Every legal event to a line of text and back: tests/desktop/lines.c.

build_lines() {
    $CC -std=c11 $WARNINGS $SANITIZE -D_XOPEN_SOURCE=700 -I"$root/include" -I"$root/desktop" -o lines \
        "$root/tests/desktop/lines.c" "$root"/desktop/line_print.c "$root"/desktop/line_parse.c "$root"/desktop/cursor.c \
        "$root"/desktop/form.c "$root"/desktop/event.c "$root"/desktop/bytes.c "$root"/desktop/words.c \
        "$archive" $LDLIBS 2> err
}

verdict 'the lines build' build_lines
verdict 'every event goes to text and back' sh -c './lines > out 2> messages || { tail -n 1 messages > err; false; }'
verdict "both legal and illegal events were met: $(cat out)" grep -q -E '^legal [1-9][0-9]{4,} illegal [1-9][0-9]{4,}$' out
