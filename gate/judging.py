"""Tells from the output of one check which of the functions that were made wrong are refused for what they mean."""
import re

LINE = re.compile(r"^fn (\S+): (.*)$", re.M)
GOALS = re.compile(r"`search` did not prove ((?:`[^`]+`(?:, | and )?)+)")
# (of a name that is missing a long message says so in its second line)
ERROR = re.compile(r"^(?:\./)?(src|specs|proofs)/(\S+?):\d+:\d+: error: (.*(?:\n +(?:has no|is not in scope)\b.*)?)$", re.M)
OF_FUNCTION = re.compile(r"^(.+)/(?:Answers|Invariants|Proof)\.antt$")
# An error that only misses a name, which the edit took away, says nothing of a contract.
MISSES_A_NAME = re.compile(r"has no field|is not in scope|has no `|was not admitted|was rejected|were not checked")
FOR_A_CALLEE = re.compile(r"^(?:no proof|not proved)(?:[:;] (?:in `[^`]+`, of this cycle of calls: )?it [^;`]*`[^;]*, which (?:is|are) not proved)+$")
REFUSED, NAME_ALONE, PROVED, FOR_CALLEE, UNTOLD = "refused", "a name alone", "proved", "for a callee", "untold"


def functions_in(folder, crate):
    """Returns a test of whether a folder of proofs is that of a function: a cycle's folder has its functions' names, joined by '+'."""
    above, _, last = folder.rpartition("/")
    names = set(last.split("+")) if last.startswith("+") else {last}
    names |= {it.split("-")[1] for it in names if it.startswith("fn-") and it.count("-")}
    head = f"{crate}::{above.replace('/', '::')}::" if above else f"{crate}::"
    return lambda key: any(key == head + it for it in names)


class Output:
    """What one check said: a line for each function, and errors by the function in whose proofs they stand."""

    def __init__(self, crate, text):
        self.crate, self.text, self.lines = crate, text, dict(LINE.findall(text))
        self.own, self.elsewhere = {it: [] for it in self.lines}, []
        for key, line in self.lines.items():
            told = GOALS.search(line)
            self.own[key] += [f"goal {it}" for it in re.findall(r"`([^`]+)`", told[1])] if told else []
        for part, file, said in ERROR.findall(text):
            of = OF_FUNCTION.match(file) if part == "proofs" else None
            keys = [it for it in self.lines if functions_in(of[1], crate)(it)] if of else []
            for key in keys:
                self.own[key].append(said)
            if not keys:
                self.elsewhere.append(f"{part}/{file}: {said}")

    def is_told(self):
        """Returns whether the check reached the prover and came to an end."""
        last = self.text.rstrip("\n").rpartition("\n")[2]
        return bool(self.lines) and last.startswith("only=")

    def keys_of(self, function):
        """Returns the names of a function and of the closures in it, as the check prints them."""
        parts = function.split("::")
        inner = [f"{self.crate}::{'::'.join([*parts[:it], 'fn', *parts[it:]])}::" for it in range(len(parts))]
        return [it for it in self.lines if it == f"{self.crate}::{function}" or it.startswith(tuple(inner))]

    def verdict(self, keys):
        """Returns what became of a function and its closures, and the first words of why."""
        own = [it for key in keys for it in self.own[key]]
        real = [it for it in own if not MISSES_A_NAME.search(it)]
        if real:
            return REFUSED, real[0]
        if own:
            return NAME_ALONE, own[0]
        lines = [self.lines[it] for it in keys]
        if lines and all(it.startswith("proved") for it in lines):
            return PROVED, "it is still proved"
        if lines and all(it.startswith("proved") or FOR_A_CALLEE.match(it) for it in lines):
            return FOR_CALLEE, next(it for it in lines if not it.startswith("proved"))
        return UNTOLD, lines[0] if lines else "the check names no such function"


def callees_of(crate, line):
    """Returns the functions that a line says are called and not proved."""
    return {it[len(crate) + 2:] for it in re.findall(r"`([^`]+)`", line) if it.startswith(f"{crate}::")}


def disturbed(output, edited):
    """Returns an unedited function that fails on its own account, or an error that stands in no function's proofs."""
    known = {key for it in edited for key in output.keys_of(it)}
    for key in output.lines:
        if key not in known and output.verdict([key])[0] not in (PROVED, FOR_CALLEE):
            return f"{key}: {output.verdict([key])[1]}"
    return output.elsewhere[0] if output.elsewhere else None
