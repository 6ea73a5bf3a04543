# Builds: the log says of each file which build ran, and leak_lines names nothing from another one.
section builds of the mapped files

. "$kit/tests/builds_common.sh"
build_of older && build_of newer -DNEWER && mkdir -p app || exit 1
installs older
start ./app/builds
dump $process traced && search traced
unprepared ./app/builds
limited 60 "$kit/leak_core" $process walked.core 2> /dev/null && "$kit/leak_walk" --quiet walked.core > walked.log &&
    walked_search walked
for name in traced walked; do
    verdict "$name: each file's build-id" "$(id_of older/builds) $(id_of older/libbuilds.so)" \
        "$(sed -n "s|^= leak_log file \(.*\) $work/app/.*|\1|p" $name.log | tr '\n' ' ' | sed 's/ $//')"
    find_leaks one $name.core $name.log > with.report
    grep -v '^= leak_log file' $name.log > bare.log
    find_leaks one $name.core bare.log > without.report
    verdict "$name: leak_find passes over remarks" "$(sed 's/^\(leak [^ ]* [^ ]*\) [0-9]*/\1/' without.report)" \
        "$(sed 's/^\(leak [^ ]* [^ ]*\) [0-9]*/\1/' with.report)"
    lines $name
    verdict "$name: nothing is said of the builds that ran" '0 0' \
        "$(grep -c build: $name.lines) $(wc -l < $name.lines.said)"
done
verdict 'functions of the build that ran' 'older_first older_library_give ' "$(names_in traced.lines)"
verdict 'a table of the build that ran' 'older_library_table ' "$(names_in walked.lines)"
"$kit/leak_log" traced.core traced.table > before.log
"$kit/leak_walk" --quiet walked.core > before.walk

installs newer
for name in traced walked; do
    lines $name
    verdict "$name: no name of another build" '' "$(names_in $name.lines)"
    verdict "$name: the row has the place in the file" yes \
        "$(grep -qE "libbuilds\.so\+0x[0-9a-f]+ +$work/app/libbuilds\.so:\[0x[0-9a-f]+\] \(another build\)$" \
        $name.lines && echo yes)"
done
verdict 'the first line says how many files differ, and what helps' 1 "$(head -n 1 traced.lines |
    grep -cE "^another build: 2 of [0-9]+ files are not those that ran, .* --root DIR: $work/app/.*, $work/app/.*$")"
verdict 'of an unprepared process too' 1 \
    "$(head -n 1 walked.lines | grep -cE "^another build: 1 of [0-9]+ files .* $work/app/libbuilds\.so$")"
"$kit/leak_log" traced.core traced.table > after.log
"$kit/leak_walk" --quiet walked.core > after.walk
verdict 'a log goes by the core, and by no file that is there now' same \
    "$(cmp -s before.log after.log && cmp -s before.walk after.walk && echo same)"

mkdir -p "root$work" && cp -r older "root$work/app"
for name in traced walked; do
    lines $name --root root
    verdict "$name: below --root the right build is found" \
        "$([ $name = traced ] && echo 'older_first older_library_give ' ||
        echo 'older_library_table ')" "$(names_in $name.lines)"
done
"$kit/leak_lines" --json traced.report > traced.json 2> json.said
verdict 'JSON says why nothing is named' yes \
    "$(grep -q '"unnamed": "another build"' traced.json && grep -q '^leak_lines: another build: 2 of ' json.said &&
    echo yes)"
cp traced.report elsewhere.report
lines elsewhere
verdict 'without a log nothing is checked, and that is said' 1 \
    "$(grep -c '^leak_lines: [0-9]* files may be of another build' elsewhere.lines.said)"
lines elsewhere --log traced.log
verdict 'with --log it is' '' "$(names_in elsewhere.lines)"
rm -r app
lines traced
verdict 'no file there' yes "$(grep -qE "libbuilds\.so:\[0x[0-9a-f]+\] \(file not found\)$" traced.lines && echo yes)"

# The program is gone while it runs, and is back as it was, or as another one.
mkdir app && installs older && unprepared ./app/builds && rm app/*
limited 60 "$kit/leak_core" $process gone.core 2> /dev/null && "$kit/leak_walk" --quiet gone.core > gone.log &&
    walked_search gone
lines gone
verdict 'deleted: a row says so' yes \
    "$(grep -q 'libbuilds\.so (deleted):\[0x[0-9a-f]*\] (file not found)$' gone.lines && echo yes)"
installs older && lines gone
verdict 'deleted, and back as it was' 'older_library_table ' "$(names_in gone.lines)"
installs newer && lines gone
verdict 'deleted, and another one there' '' "$(names_in gone.lines)"
stop $process

# Without a build-id size and time of change tell two builds apart, or nothing does.
build_of older -Wl,--build-id=none && installs older
unprepared ./app/builds
limited 60 "$kit/leak_core" $process unknown.core 2> /dev/null && "$kit/leak_walk" \
    --quiet unknown.core > unknown.log && walked_search unknown
mkdir known && "$kit/leak_lines" --copy-files known/kept --pid $process --log unknown.log
stop $process
verdict 'no build-id: size and time of change' "$(stat -c '%s %Y' app/libbuilds.so) $work/app/libbuilds.so" \
    "$(awk '/^= leak_log written .*\/libbuilds.so$/ { print $4, $5, $7 }' unknown.log)"
lines unknown
verdict 'no build-id, but the same size and time: a name' 'older_library_table ' "$(names_in unknown.lines)"
touch app/libbuilds.so
for word in '' --unchecked; do
    lines unknown $word
    verdict "no build-id, and another time: no name, $word" '1 ' \
        "$(grep -c '^another build: 1 of ' unknown.lines) $(names_in unknown.lines)"
done
lines unknown --root known/kept
verdict 'no build-id: a copy that was kept is the same' 'older_library_table ' "$(names_in unknown.lines)"
sed -i '/^= leak_log written /d' unknown.log # as of a core by the kernel
lines unknown
verdict 'no build-id: no name' "1 0" \
    "$(grep -c '^build not known: 1 of .* --unchecked: ' unknown.lines) $(names_in unknown.lines | wc -w)"
lines unknown --unchecked
verdict 'no build-id: a name, if it is asked for' 'older_library_table ' "$(names_in unknown.lines)"
build_of newer -DNEWER && installs newer
lines unknown --unchecked
verdict 'one with a build-id is another' '' "$(names_in unknown.lines)"

# Two million files of the worst kind: 64 MB more of a core take seconds, and a log that is no longer than they are.
python3 -B "$kit/tests/builds_hostile.py" walked.core hostile.core 2000000 || exit 1
(ulimit -t 120; limited 600 "$kit/leak_walk" --quiet hostile.core 2> /dev/null; echo $? > hostile.status) |
    wc -c > hostile.bytes
verdict 'a hostile core: at most 120 s of processor time' 0 "$(cat hostile.status)"
verdict 'a hostile core: a bounded log' yes \
    "$([ "$(cat hostile.bytes)" -gt 40000000 ] && [ "$(cat hostile.bytes)" -lt "$(stat -c %s hostile.core)" ] &&
    echo yes)"

python3 -B "$kit/tests/builds_hostile.py" walked.core beyond.core 1 4096 || exit 1
"$kit/leak_walk" --quiet beyond.core > beyond.log
verdict 'notes that the core lacks: the build is not known' '= leak_log file ? 0' \
    "$(grep '^= leak_log file .* 0$' beyond.log)"

python3 -B "$kit/tests/lines_builds_test.py" 2> builds_test.said
status=$?
verdict "the parts: $(tail -n 3 builds_test.said | head -n 1)" 0 $status
rm -f ./*.core
