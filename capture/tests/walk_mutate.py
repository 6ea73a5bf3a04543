"""walk_mutate.py COUNT WALK SANITIZED MEMORY CORE..: so many times takes one of the cores, damages it or cuts it off at
random, and runs leak_walk and its build with -fsanitize=address,undefined over it. Each must end within 10 seconds,
with 0, 1 or 2, with no finding, without output where it is 2. What leak_walk allocates, which the preloaded library
MEMORY counts, and the mapped core must be twice the core's size at most. The first damage is by the seed SEED of the
environment, or 1."""
import os, random, struct, subprocess, sys, tempfile

count, walk, sanitized, memory, cores = int(sys.argv[1]), *sys.argv[2:4], os.path.abspath(sys.argv[4]), sys.argv[5:]
SECONDS, FOUND = 10, 99
environment = dict(os.environ, ASAN_OPTIONS=f"exitcode={FOUND}:detect_leaks=0",
                   UBSAN_OPTIONS=f"halt_on_error=1:exitcode={FOUND}")

def writable(data):
    """The places in the file of the writable segments."""
    headers, number = struct.unpack_from("<Q", data, 32)[0], struct.unpack_from("<H", data, 56)[0]
    for i in range(number):
        kind, flags, offset, _, _, size = struct.unpack_from("<IIQQQQ", data, headers + 56 * i)
        if kind == 1 and flags & 2 and size:
            yield offset, size

def some_word(data, chance, values):
    """A place of 8 bytes in writable memory, chosen near what looks like malloc's: of some tries the first whose word
    is small or an address."""
    offset, size = chance.choice(values)
    at = offset + chance.randrange(max(size // 8, 1)) * 8
    for _ in range(50):
        word = struct.unpack_from("<Q", data, at)[0] if at + 8 <= len(data) else 0
        if word & 7 in (1, 2, 5) and 16 < word < 1 << 24 or word >> 40 in (0x55, 0x56, 0x7f):
            break
        at = offset + chance.randrange(max(size // 8, 1)) * 8
    return at

def mutate(data, chance):
    values, kind = list(writable(data)), chance.randrange(6)
    for _ in range(chance.choice((1, 1, 3, 20))):
        at = some_word(data, chance, values)
        if at + 8 > len(data):
            continue
        word = struct.unpack_from("<Q", data, at)[0]
        other = struct.unpack_from("<Q", data, some_word(data, chance, values) & ~7)[0]
        new = (word + 16 * chance.randrange(-9, 9), word ^ 1 << chance.randrange(64), other, chance.randrange(1 << 64),
               0, 17)[chance.randrange(6)]
        if kind < 4:
            struct.pack_into("<Q", data, at, new & (1 << 64) - 1)
        else:
            data[chance.randrange(64 + 56 * 200)] = chance.randrange(256)
    return data[:chance.randrange(len(data))] if kind == 5 else data

def run(program, path, options, more):
    """What was wrong, or nothing."""
    with open(path + ".out", "wb") as out, open(path + ".said", "wb") as said:
        try:
            status = subprocess.run([program, *options, path], stdout=out, stderr=said, env={**environment, **more},
                                    timeout=SECONDS).returncode
        except subprocess.TimeoutExpired:
            return f"more than {SECONDS} s"
    text = open(path + ".said", "rb").read()
    statuses[status] = statuses.get(status, 0) + 1
    if status not in (0, 1, 2) or b"out of memory" in text or b"Cannot allocate" in text:
        return f"status {status}: {text[-1500:].decode(errors='replace')}"
    if status == 2 and os.path.getsize(path + ".out"):
        return "output beside a refusal"
    return "" if status != 2 or text.startswith(b"leak_walk: ") else f"no reason: {text}"

def run_counted(path, options, size):
    """The same of leak_walk itself, and that it allocates no more than the core's size."""
    global most
    wrong = run(walk, path, options, {"LD_PRELOAD": memory, "MEMORY": path + ".memory"})
    if wrong:
        return wrong
    allocated = int(open(path + ".memory").read())
    most = max(most, allocated / max(size, 1))
    return f"{allocated} bytes allocated, for a core of {size}" if allocated > size else ""

statuses, bad, most = {}, 0, 0
with tempfile.TemporaryDirectory() as folder:
    for i in range(count):
        chance = random.Random(int(os.environ.get("SEED", "1")) * 1000003 + i)
        core, path = cores[i % len(cores)], folder + "/core"
        data = mutate(bytearray(open(core, "rb").read()), chance)
        with open(path, "wb") as copy:
            copy.write(data)
        options = ["--partial"] if chance.random() < 0.5 else []
        wrong = run(sanitized, path, options, {}) or run_counted(path, options, len(data))
        if wrong:
            bad += 1
            print(f"mutation {i} of {core}: {wrong}", flush=True)
print(f"{count} mutations, {bad} wrong; statuses of both builds {dict(sorted(statuses.items()))}; at most {most:.4f} "
      f"of the core's size allocated")
sys.exit(bad != 0)
