"""Debug files by build-id from the servers that DEBUGINFOD_URLS names, by elfutils' client debuginfod-find
(debuginfod-find(1)).

It runs with limits, and as root as nobody with a cache of its own, which goes; else with the user's cache.
"""
import os
import shutil
import subprocess
import tempfile

from lines import limited, opened

COMMAND, SERVERS = "debuginfod-find", "DEBUGINFOD_URLS"
HANDED = (SERVERS, "DEBUGINFOD_CACHE_PATH", "DEBUGINFOD_TIMEOUT", "HOME", "XDG_CACHE_HOME")
LIMITS = limited.Limits(1024 * limited.MIB, 60, 120, 1 << 16)


class Client:
    """Asks the servers, until they do not answer."""

    def __init__(self):
        """Nothing is asked yet."""
        self.is_silent = False

    def variables(self, folder):
        """What the client is handed of the environment. Without a time of their own servers have 30 s to begin an
        answer."""
        handed = {"DEBUGINFOD_TIMEOUT": "30", **{name: os.environ[name] for name in HANDED if name in os.environ}}
        if os.geteuid() == 0:
            os.chown(folder, limited.NOBODY, limited.NOBODY)
            handed.update(HOME=folder, DEBUGINFOD_CACHE_PATH=folder)
        return handed

    def path_of(self, identity, folder):
        """The path that the client prints, or None."""
        try:
            with limited.Running([COMMAND, "debuginfo", identity], LIMITS, variables=self.variables(folder)) as run:
                paths = list(run.lines())
        except (OSError, subprocess.SubprocessError) as error:
            run, paths = None, []
            limited.say(f"{COMMAND} can't be run: {error}")
        if run is None or run.why:
            self.is_silent = True
            limited.say(f"{COMMAND} {run.why if run else 'failed'}: no server is asked again")
        return paths[0] if paths else None

    def file_of(self, identity, is_right):
        """The debug file of this build-id, open, if a server has it and it is the right one; else None."""
        if len(identity) < 4 or self.is_silent or not os.environ.get(SERVERS) or not shutil.which(COMMAND):
            return None
        with tempfile.TemporaryDirectory(prefix="leak_lines.") as folder:
            path = self.path_of(identity, folder)
            try:
                file = opened.open_here(path) if path else None
            except OSError:
                return None
        if file is not None and not is_right(file):
            file.close()
            return None
        return file


SHARED = Client()
