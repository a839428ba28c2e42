# make install: every file in its place below DESTDIR, and a program can be built with them. make uninstall: none is left.

# install_to WORD..: make with these words, over a build of its own.
install_to() {
    make -C "$root" -s BUILD="$work/install/build" ARCHIVE="$archive" LDLIBS="$LDLIBS" CC="$CC" "$@" > out 2> err
}

# files FOLDER: the files below it.
files() {
    (cd "$1" && find . -type f | sort)
}

verdict 'make install' install_to install DESTDIR="$work/install/root" PREFIX=/opt/desk
verdict 'every file is in its place' [ "$(files root)" = './opt/desk/bin/hsc
./opt/desk/include/hsc.h
./opt/desk/lib/libhsc.a
./opt/desk/lib/pkgconfig/hsc.pc
./opt/desk/share/man/man1/hsc.1
./opt/desk/share/man/man3/hsc.3
./opt/desk/share/man/man5/hsc-events.5' ]
same root/opt/desk/lib/libhsc.a "$archive"
verdict 'the program runs' [ "$(root/opt/desk/bin/hsc check two-events.trace)" = 'true: all 3 snapshots' ]
verdict 'hsc.pc has the prefix' grep -q -x 'prefix=/opt/desk' root/opt/desk/lib/pkgconfig/hsc.pc
verdict 'hsc.pc has the version' grep -q -x "Version: $version" root/opt/desk/lib/pkgconfig/hsc.pc

# Elsewhere, with blanks and bars in the name: nothing is built again, and pkg-config finds header and archive.
touch built
here="$work/install/here & there | then"
verdict 'make install, elsewhere' install_to install PREFIX="$here"
verdict 'nothing is built again' [ -z "$(find build -type f -newer built)" ]
verdict 'hsc.pc has the other prefix' grep -q -x -F "prefix=$here" "$here/lib/pkgconfig/hsc.pc"
if command -v pkg-config > /dev/null; then
    flags=$(PKG_CONFIG_PATH="$here/lib/pkgconfig" pkg-config --cflags --libs hsc)
    verdict 'pkg-config names header and archive' eval "$CC -o calls '$root/tests/desktop/calls.c' $flags $LDLIBS"
    verdict 'a program over the installed files runs' ./calls two-events.trace
else
    skip 'no pkg-config'
fi

# Nothing of it is left, and nothing else goes.
touch "$here/lib/other"
verdict 'make uninstall' install_to uninstall PREFIX="$here"
verdict 'only what is not ours stays' [ "$(files "$here")" = ./lib/other ]
verdict 'make uninstall below DESTDIR' install_to uninstall DESTDIR="$work/install/root" PREFIX=/opt/desk
verdict 'no file stays' [ -z "$(files root)" ]
verdict 'make uninstall where nothing is' install_to uninstall DESTDIR="$work/install/root" PREFIX=/opt/desk
