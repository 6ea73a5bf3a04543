#!/usr/bin/python3
"""suites.py [--optimize LEVEL] [--compiler CC] [--only TEXT] [--without WAY] [--jobs N] [--reasons] FOLDER: the tests
of other leak finders.

FOLDER gets the sources of Debian's packages valgrind, llvm-toolchain-14, libgc and google-perftools by
`apt-get source`, 150 MB, and the programs. Each test of cases.txt is built with a stop in place of its own check
(stop/). At the stop it is searched four ways: by leak_dump and leak_find, traced by leak_trace and not, by gcc's
LeakSanitizer, and by valgrind. What they name is compared with what the authors expect. Prints a table of Markdown, and
lines that count; with --reasons on standard error also why a lost block isn't named (reasons.py).

Needs gcc, g++, valgrind, capture built, leak_find (LEAK_FIND or in PATH), and processes that may be traced."""
import argparse
import collections
import concurrent.futures
import os
import re
import signal
import subprocess
import sys
import threading
import time

sys.dont_write_bytecode = True
import reasons  # noqa: E402

HERE = os.path.dirname(os.path.realpath(__file__))
CAPTURE = os.path.join(HERE, '..', '..', 'capture')
FINDER = os.environ.get('LEAK_FIND', 'leak_find')
# Of each suite: package, what of its sources is unpacked, where its tests are below the folder `suite`.
SUITES = {
    'valgrind': ('valgrind', ['*/memcheck/tests', '*/tests/sys_mman.h'], 'memcheck/tests'),
    'lsan': ('llvm-toolchain-14', ['*/compiler-rt/test/lsan/TestCases', '*/compiler-rt/test/sanitizer_common/*.h'],
             'compiler-rt/test/lsan/TestCases'),
    'bdwgc': ('libgc', ['*/tests'], 'tests'),
    'gperftools': ('google-perftools', ['*/src/tests'], 'src/tests'),
}
SOURCES = 'deb-src [signed-by=/usr/share/keyrings/debian-archive-keyring.gpg] http://deb.debian.org/debian bookworm main\n'
WAYS = ('traced', 'by the heap', 'LeakSanitizer', 'valgrind')
Case = collections.namedtuple('Case', 'number suite source options words stop lost')


def run(*words, **how):
    return subprocess.run(words, capture_output=True, text=True, errors='replace', stdin=subprocess.DEVNULL, **how)


def fetch(folder):
    """Gets the packages by apt-get with lists of its own, and unpacks the tests."""
    lists = os.path.join(folder, 'apt')
    os.makedirs(os.path.join(lists, 'lists', 'partial'), exist_ok=True)
    with open(os.path.join(lists, 'sources.list'), 'w') as file:
        file.write(SOURCES)
    settings = [f'Dir::Etc::SourceList={lists}/sources.list', 'Dir::Etc::SourceParts=/dev/null',
                f'Dir::State::Lists={lists}/lists', f'Dir::Cache={lists}']
    apt = ['apt-get', '-q'] + [word for setting in settings for word in ('-o', setting)]
    subprocess.run(apt + ['update'], check=True, stdout=sys.stderr)
    subprocess.run(apt + ['source', '--download-only'] + [package for package, _, _ in SUITES.values()], check=True,
                   cwd=lists, stdout=sys.stderr)
    for suite, (package, wanted, _) in SUITES.items():
        archive = next(name for name in os.listdir(lists) if name.startswith(package + '_') and '.orig.tar' in name)
        to = os.path.join(folder, suite)
        os.makedirs(to, exist_ok=True)
        subprocess.run(['tar', 'xf', os.path.join(lists, archive), '-C', to, '--strip-components=1',
                        '--wildcards'] + wanted,
                       check=True)


def put_headers(folder):
    """Puts our headers where the tests look for those of their own checker."""
    for path in 'valgrind/memcheck/memcheck.h', 'valgrind/memcheck/include/valgrind.h', 'config.h':
        os.makedirs(os.path.dirname(os.path.join(folder, path)), exist_ok=True)
        with open(os.path.join(folder, path), 'w') as header:
            header.write(f'#include "{HERE}/stop/memcheck.h"\n' if path != 'config.h' else '')


def read_cases(path):
    with open(path) as file:
        for number, line in enumerate(file, 1):
            if line.strip() and not line.startswith('#'):
                suite, source, words, stop, lost = line.split()
                source, *options = source.split(',')
                sizes = [each.split('*') + ['1'] for each in lost.split(',') if lost != '-']
                yield Case(number, suite, source, options, words.split(',') if words != '-' else [], stop,
                           collections.Counter({int(size): int(count) for size, count, *_ in sizes}))


class Builder:
    """Builds each source once with these options, plain and for LeakSanitizer."""

    def __init__(self, folder, settings):
        self.folder, self.settings = folder, settings
        self.programs = os.path.join(folder, f'programs.{settings.compiler}.{settings.optimize}')
        self.stop, self.locks = os.path.join(self.programs, 'stop.o'), collections.defaultdict(threading.Lock)
        os.makedirs(self.programs, exist_ok=True)
        subprocess.run(['gcc', '-O1', '-g', '-c', HERE + '/stop/stop.c', '-o', self.stop], check=True)

    def program(self, case, sanitizer):
        program = os.path.join(self.programs, re.sub(r'\W', '_', case.suite + '_' + case.source + sanitizer))
        with self.locks[program]:
            if not os.path.exists(program):
                self.build(case, sanitizer, program)
        return program

    def build(self, case, sanitizer, program):
        tests = os.path.join(self.folder, case.suite, SUITES[case.suite][2])
        is_cxx = case.source.endswith(('.cc', '.cpp'))
        compiler = self.settings.compiler
        if is_cxx:
            compiler = {'gcc': 'g++', 'clang': 'clang++'}[compiler]
        includes = ['-I' + HERE + '/stop', '-I' + self.folder + '/lsan/compiler-rt/test',
                    '-I' + self.folder + '/valgrind',
                    '-I' + self.folder]
        level = [] if any(option.startswith('-O') for option in case.options) else ['-O' + self.settings.optimize]
        words = [compiler, '-g', '-w', '-DVGP_amd64_linux', '-DVGA_amd64'] + level + case.options + includes
        said = run(*words, os.path.join(tests, case.source), self.stop, '-o', program,
                   *([sanitizer] if sanitizer else []), '-ldl')
        if said.returncode:
            sys.exit(f'{case.source}: {said.stderr}')
        if case.source.endswith('dlclose_leak.c'):
            subprocess.run([compiler, '-w', '-shared', '-fPIC', os.path.join(tests, 'linux/dlclose_leak_so.c'), '-o',
                            self.programs + '/dlclose_leak_so.so'], check=True)


def words_and_environment(case):
    environment = dict(os.environ, LEAK_STOP=case.stop, HEAP_CHECKER_TEST_INTERFERING_THREADS='0')
    environment.update(word.split('=') for word in case.words if '=' in word)
    return [word for word in case.words if '=' not in word], environment


def sizes_that_fit(is_traced):
    return (lambda asked, size: asked == size) if is_traced else usable


def dump_and_search(program, case, is_traced, tells_reasons):
    """The sizes of the blocks that are named, or None if there is no report."""
    words, environment = words_and_environment(case)
    name = f'{program}.{case.number}'
    environment['LEAK_STOP_FILE'] = name + '.stop'
    environment['LEAK_TRACE'] = name + '.tables.%p'
    tracer = [CAPTURE + '/leak_trace'] if is_traced else []
    process = subprocess.Popen(tracer + [program] + words, env=environment, stdin=subprocess.DEVNULL,
                               stdout=subprocess.DEVNULL,
                               stderr=subprocess.DEVNULL, cwd=os.path.dirname(program), start_new_session=True)
    try:
        stopped = wait_for(name + '.stop', 60)
        if not stopped:
            return None
        time.sleep(0.1)
        said = run(CAPTURE + '/leak_dump', stopped, name).stderr
        search = re.search(r'now search: leak_find one (.*?) \S+\.core', said)
        if not search:
            return None
        report = run(FINDER, 'one', *search[1].split(), name + '.core', name + '.log').stdout
        named = [line.split() for line in report.splitlines() if line.startswith('leak ')]
        if tells_reasons:
            tell_reasons(case, name, search[1].split(), named, is_traced)
        return [int(size) for _, _, size, *_ in named]
    finally:
        os.killpg(process.pid, signal.SIGKILL)
        process.wait()
        for file in os.listdir(os.path.dirname(program)):
            if file.startswith(os.path.basename(name) + '.'):
                os.remove(os.path.join(os.path.dirname(program), file))


def tell_reasons(case, name, options, named, is_traced):
    fits, missed = sizes_that_fit(is_traced), list(case.lost.elements())
    for _, _, size, *_ in named:
        found = next((asked for asked in missed if fits(asked, int(size))), None)
        if found is not None:
            missed.remove(found)
    addresses = {int(address, 16) for _, address, *_ in named}
    for reason in reasons.reasons((FINDER, CAPTURE), options, name, missed, addresses, fits):
        print(f'{title(case)} {case.stop}, {WAYS[not is_traced]}: {reason}', file=sys.stderr)


def wait_for(path, seconds):
    """The text of a file once it is whole."""
    for _ in range(seconds * 20):
        if os.path.exists(path):
            with open(path) as file:
                text = file.read()
            if text.endswith('\n'):
                return text.strip()
        time.sleep(0.05)
    return None


def totals_by_sanitizer(program, case):
    words, environment = words_and_environment(case)
    said = run(program, *words, env=environment, cwd=os.path.dirname(program), timeout=120).stderr
    leaks = re.findall(r'(?:Direct|Indirect) leak of (\d+) byte\(s\) in (\d+) object', said)
    return sum(int(blocks) for _, blocks in leaks), sum(int(size) for size, _ in leaks)


def totals_by_valgrind(program, case):
    words, environment = words_and_environment(case)
    said = run('valgrind', '-q', '--leak-check=full', program, *words, env=environment, cwd=os.path.dirname(program),
               timeout=300).stderr
    found = re.search(r'^valgrind: (\d+) blocks (\d+) bytes', said, re.MULTILINE)
    return (int(found[1]), int(found[2])) if found else None


def usable(asked, size):
    """Whether glibc gives a block of this usable size to who asks for so many bytes: a rest too small for a chunk
    stays."""
    least = max(24, (asked + 8 + 15) // 16 * 16 - 8)
    return least <= size <= least + 32 or (asked >= 1 << 17 and asked < size < asked + 8192)


def matched(lost, named, fits):
    """How many of the blocks named are of the lost ones."""
    left, count = list(named), 0
    for size in sorted(lost.elements(), reverse=True):
        match = next((each for each in left if fits(size, each)), None)
        if match is not None:
            left.remove(match)
            count += 1
    return count, len(left)


def judge(lost, found):
    """A cell of the table, whether all were found, and how many were named falsely."""
    if found is None:
        return 'no report', False, 0
    good, false = found
    text = str(good) if not false else f'{good} and {false} wrong'
    return text, good == sum(lost.values()), false


def judge_totals(lost, totals):
    if totals is None:
        return 'no report', False, 0
    wanted = sum(lost.values()), sum(size * count for size, count in lost.items())
    blocks, size = totals
    is_whole = blocks == wanted[0] and (size == wanted[1] or lost == {0: 1})
    return str(blocks), is_whole, max(0, blocks - wanted[0])


def try_way(way, case, builder):
    if way in builder.settings.without:
        return '', False, 0
    if way == 'LeakSanitizer':
        return judge_totals(case.lost, totals_by_sanitizer(builder.program(case, '-fsanitize=leak'), case))
    program = builder.program(case, '')
    if way == 'valgrind':
        return judge_totals(case.lost, totals_by_valgrind(program, case))
    is_traced = way == 'traced'
    named = dump_and_search(program, case, is_traced, builder.settings.reasons)
    return judge(case.lost, None if named is None else matched(case.lost, named, sizes_that_fit(is_traced)))


def title(case):
    return ' '.join([case.source] + case.words)


def main():
    words = argparse.ArgumentParser(description='Runs the tests of other leak finders.')
    words.add_argument('--optimize', default='0', metavar='LEVEL', help='of the compiler, for tests that set none [0]')
    words.add_argument('--compiler', default='gcc', choices=['gcc', 'clang'])
    words.add_argument('--only', default='', metavar='TEXT', help='tests whose line has the text')
    words.add_argument('--without', default=[], action='append', metavar='WAY', choices=WAYS,
                       help='a way that is left out')
    words.add_argument('--jobs', default=1, type=int, metavar='N', help='how many tests run at a time [1]')
    words.add_argument('--reasons', action='store_true', help="tells why lost blocks aren't named, on standard error")
    words.add_argument('folder')
    settings = words.parse_args()
    folder = os.path.realpath(settings.folder)
    if not os.path.exists(os.path.join(folder, 'gperftools')):
        fetch(folder)
    put_headers(folder)
    builder = Builder(folder, settings)
    counts, leaky = collections.Counter(), 0
    print('| Suite | Test | Stop | Lost | ' + ' | '.join(WAYS) + ' |\n|---|---|---|---|---|---|---|---|')
    cases = [case for case in read_cases(os.path.join(HERE, 'cases.txt')) if settings.only in title(case)]
    with concurrent.futures.ThreadPoolExecutor(settings.jobs) as pool:
        for case, cells in zip(cases, pool.map(lambda case: [try_way(way, case, builder) for way in WAYS], cases)):
            print(f'| {case.suite} | {title(case)} | {case.stop} | {sum(case.lost.values())} | '
                  + ' | '.join(text + ('' if whole else ' *') for text, whole, _ in cells) + ' |', flush=True)
            leaky += bool(case.lost)
            for way, (_, whole, false) in zip(WAYS, cells):
                counts[way, 'whole'] += bool(case.lost) and whole
                counts[way, 'false'] += false
    print(f'\n{len(cases)} runs, {leaky} with leaks.')
    for way in (way for way in WAYS if way not in settings.without):
        print(f'{way}: {counts[way, "whole"]} of {leaky} found whole, {counts[way, "false"]} blocks named that are '
              f'not lost.')


main()
