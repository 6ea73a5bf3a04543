# Six busy threads, stopped at many moments: each entry must be right, and none but lost blocks be named.
section six busy threads
moments=${MOMENTS:-20}
[ "$quick" ] && moments=4
build threads.c
wait=0 start ./threads > threads.out
until_true 60 grep -qsx ready threads.out
busy=$process
strangers() { named "$1" | tr ' ' '\n' | grep -vxE '45|61|77|93|109|125|' | tr '\n' ' '; }
wrong=0
for _ in $(seq "$moments"); do
    dump $busy "$work/threads" && python3 "$kit/tests/slots.py" ./threads threads.core threads.log > slots ||
        { cat slots; wrong=$((wrong + 1)); }
    search threads
    find_leaks one --skip-freed threads.core threads.log > freed.report 2>&1
    strangers freed.report >> strangers
    awk '$1 == "freed" { print ($2 > 0) }' freed.report >> known
    python3 "$kit/tests/spans.py" threads.log > spans || { cat spans; wrong=$((wrong + 1)); }
    strangers threads.report >> strangers
    grep -c '^leak ' threads.report >> counts
    sleep 0.$((RANDOM % 90 + 10))
done
verdict "entries, at $moments moments" 0 $wrong
verdict 'wrongly named' '' "$(cat strangers)"
echo "     freed memory was known at $(grep -c 1 known) of $moments moments"
echo "     of 600 lost blocks were named: $(sort -n counts | tr '\n' ' ')"

section pairs of dumps
for i in 1 2 3; do
    dump $([ $i -gt 1 ] && echo --after "$work/two$((i - 1))") $busy "$work/two$i"
    if [ $i -gt 1 ]; then
        find_leaks two two$((i - 1)).{core,log} two$i.{core,log} > two.report 2>&1
        verdict "pair $i is taken" 1 $?
        verdict 'wrongly named' '' "$(strangers two.report)"
        find_leaks two --skip-freed two$((i - 1)).{core,log} two$i.{core,log} > freed.report 2>&1
        verdict 'wrongly named without freed memory' '' "$(strangers freed.report)"
        verdict 'spans' 'over no live block' "$(python3 "$kit/tests/spans.py" two$i.log | sed 's/.*, //')"
        echo "     $(grep -E '^(blocks|new|leaked|unknown)' two.report | tr '\n' ' ')"
    fi
    sleep 0.4
done
stop $busy
rm -f threads.core two?.core
