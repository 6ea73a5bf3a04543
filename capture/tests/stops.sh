# The table at each moment of a program: after each instruction, and while six threads free each other's blocks.
section stopped after each instruction
cp "$kit/leak_trace.so" . && build step.c && gcc -O1 -shared -fPIC -DALLOCATOR "$kit/tests/step.c" -o truth.so
for depth in 1 8; do
    verdict "depth $depth" 'none wrong' "$(LEAK_TRACE_DEPTH=$depth limited 300 ./step | sed 's/.*at, //')"
done
depth=

section "threads that free each other's blocks"
build exchange.c
verdict exchange 'wrong 0 others few missed 0' "$(limited 120 "$kit/leak_trace" ./exchange "$work/table" 2> /dev/null)"
