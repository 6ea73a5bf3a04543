"""measured.py SECONDS MEGABYTES BYTES OUTPUT COMMAND..: runs the command with its output to the file, and prints its
status, and `in bounds` if it took no more processor time, memory and output; else what it took. Then on standard error
the figures themselves. How long it waits for a processor is no matter, but after MOST_WAITING seconds it is ended."""
import resource
import subprocess
import sys
import time

MOST_WAITING = 600
seconds, megabytes, most = float(sys.argv[1]), int(sys.argv[2]), int(sys.argv[3])


def limit():
    resource.setrlimit(resource.RLIMIT_FSIZE, (most + 4096, most + 4096))  # what it says is a file too
    resource.setrlimit(resource.RLIMIT_CORE, (0, 0))
    now = resource.getrlimit(resource.RLIMIT_CPU)[0]
    lowest = int(seconds) + 1 if now == resource.RLIM_INFINITY else min(now, int(seconds) + 1)
    resource.setrlimit(resource.RLIMIT_CPU, (lowest, lowest))


began = time.monotonic()
with open(sys.argv[4], 'wb') as output:
    process = subprocess.Popen(sys.argv[5:], stdout=output, preexec_fn=limit)
    try:
        status = process.wait(MOST_WAITING)
    except subprocess.TimeoutExpired:
        process.kill()
        status = process.wait()
    size = output.seek(0, 2)
waited, used = time.monotonic() - began, resource.getrusage(resource.RUSAGE_CHILDREN)
took, memory = used.ru_utime + used.ru_stime, used.ru_maxrss / 1024
is_within = took <= seconds and waited < MOST_WAITING and memory <= megabytes and size <= most
print(status, 'in bounds' if is_within else f'took {took:.1f} of {waited:.1f} s, {memory:.0f} MB, {size} bytes')
print(f'{took:.2f} s, {memory:.0f} MB in memory, {size} bytes of log', file=sys.stderr)
