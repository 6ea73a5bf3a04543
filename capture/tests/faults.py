"""faults.py OUTPUT COMMAND..: runs the command with its output to the file, and prints its status and how many page
faults it took."""
import os
import sys

output, command = sys.argv[1], sys.argv[2:]
to_file = (os.POSIX_SPAWN_OPEN, 1, output, os.O_WRONLY | os.O_CREAT | os.O_TRUNC, 0o600)
process = os.posix_spawnp(command[0], command, os.environ, file_actions=[to_file])  # no fork, which has faults itself
_, status, used = os.wait4(process, 0)
print(os.waitstatus_to_exitcode(status), used.ru_minflt + used.ru_majflt)
