# What lines_builds.sh and lines_files.sh share: two builds of a program and its library, and tables of them.
# build_of NAME OPTION..: in the folder NAME the program builds with its library, which it finds by the path of the
# folder `app`.
build_of() {
    mkdir -p "$1" &&
        gcc -g -O1 -fPIC -shared -Wl,-soname,libbuilds.so "${@:2}" "$kit/tests/builds_library.c" -o "$1/libbuilds.so" &&
        gcc -g -O1 "${@:2}" "$kit/tests/builds.c" -o "$1/builds" "$1/libbuilds.so" -Wl,-rpath,"$work/app" || exit 1
}
id_of() { readelf -n "$1" | awk '/Build ID/ { print $3 }'; }
# installs NAME: the build is at the path of the program, each file a new one, as package managers do it.
installs() { rm -f app/*; cp "$1"/* app/; }
# names_in FILE: the functions of a table that are of the builds, without their calls' order.
names_in() { grep -oE '(older|newer)_[a-z_]+' "$1" | sort -u | tr '\n' ' '; }
# walked_search NAME: of a log by leak_walk, which tells where malloc has links of its own.
walked_search() { find_leaks one --skip-freed --skip-links "$1.core" "$1.log" > "$1.report"; }
# lines NAME WORD..: leak_lines of NAME.report to NAME.lines.
lines() { "$kit/leak_lines" "${@:2}" "$1.report" > "$1.lines" 2> "$1.lines.said"; }
