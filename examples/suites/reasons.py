"""Why a lost block of a test is not named: the compiler left it out, or a chain of words leads to it."""
import collections
import re
import subprocess

MOST_ASKED, MOST_TOLD = 400, 5
CALL = re.compile(r'(?:^|^@ .* )([-+<>]) (0x[0-9a-f]+)(?: (0x[0-9a-f]+))?$')


def run(*words):
    return subprocess.run(words, capture_output=True, text=True, check=False).stdout


def live_blocks(log):
    """Address and size of each live block of a log in mtrace's format."""
    live = {}
    with open(log, encoding='utf-8', errors='replace') as file:
        for line in file:
            found = CALL.search(line)
            if found and found[1] in '+>':
                live[int(found[2], 16)] = int(found[3], 16)
            elif found:
                live.pop(int(found[2], 16), None)
    return live


def place_of(root, core, capture):
    """What has the root: a register of a thread, or the symbol, file or stack of an address."""
    if not root.startswith('0x'):
        return root
    said = run(capture + '/leak_what', '--place', core, root).split(maxsplit=2)
    return said[2].strip() if len(said) == 3 else root


def holder(finder, options, name, address, capture):
    """What holds a block."""
    said = run(finder, 'why', *options, name + '.core', name + '.log', hex(address)).splitlines()
    root = next((line.split(' holds ')[0].removeprefix('root ') for line in said if line.startswith('root ')), None)
    links = sum(line.startswith('word ') for line in said)
    if root is None:
        return 'nothing that leak_find why tells'
    return place_of(root, name + '.core', capture) + (', through other blocks' if links else '')


def reasons(tools, options, name, missed, named, fits):
    """A line for each size that is missed: how many blocks of it are not there, and what holds the others."""
    finder, capture = tools
    live = {address: size for address, size in live_blocks(name + '.log').items() if address not in named}
    for wanted, count in sorted(collections.Counter(missed).items()):
        there = [address for address, size in live.items() if fits(wanted, size)]
        if len(there) < count:
            yield f'{count - len(there)} of {wanted} bytes: the program has no such block'
        holders = collections.Counter(holder(finder, options, name, each, capture) for each in there[:MOST_ASKED])
        for text, blocks in holders.most_common(MOST_TOLD):
            yield f'{wanted} bytes: {blocks} of {len(there)} blocks held by {text}'
