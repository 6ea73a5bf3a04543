"""heaps_table.py LOG WALK: the blocks of a log by leak_trace's table against those of the walk of the same core. Prints
how many the walk lacks, how many are smaller there than what was asked for, and how many it has more."""
import sys

from heaps_core import read_log

table, walk = (dict(read_log(open(path, "rb").read())[0]) for path in sys.argv[1:3])
print("missing %d smaller %d" % (len(table.keys() - walk.keys()), sum(walk.get(start, size) < size for start, size in table.items())))
print("in the table %d, by the walk %d, more %d" % (len(table), len(walk), len(walk.keys() - table.keys())))
