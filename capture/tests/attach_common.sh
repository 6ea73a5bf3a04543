# What the tests of attaching share.
trace=$kit/leak_trace
# whole: what a process has for code (but of libm, which comes and goes), and for mappings without those of the
# library: a sum.
cat > whole.py << 'END'
import hashlib, re, sys
sums, kept = hashlib.md5(), []
with open(f"/proc/{sys.argv[1]}/maps") as maps, open(f"/proc/{sys.argv[1]}/mem", "rb") as memory:
    for line in maps:
        start, end, rights, path = re.match(r"(\w+)-(\w+) (....) \S+ \S+ \S+ *(.*)", line).groups()
        if rights.startswith("r-x") and path.startswith("/") and "memfd" not in path and "/libm.so" not in path:
            memory.seek(int(start, 16))
            sums.update(memory.read(int(end, 16) - int(start, 16)))
        if len(sys.argv) > 2 and "[" not in path:
            kept.append(line.split(" ", 2)[:2])
print(sums.hexdigest(), hashlib.md5(repr(kept).encode()).hexdigest())
END
whole() { python3 whole.py "$@"; }
# attach PID, detach PID: what they say goes to NAME.said.
attach() { limited 60 "$trace" -d 4 --attach "$1" 2> attach.said; }
detach() { limited 60 "$trace" --detach "$1" 2> detach.said; }
# refused NAME WHY PID: it says why, and the process is as it was.
refused() {
    local before after
    before=$(whole "$3" mappings)
    limited 60 "$trace" --attach "$3" 2> refused.said
    verdict "refused: $1" "2, 1: $2" "$?, $(wc -l < refused.said): $(grep -oF -- "$2" refused.said | head -n 1)"
    after=$(whole "$3" mappings)
    verdict "refused: $1: it is as it was" "$before" "$after"
}
