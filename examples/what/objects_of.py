"""The objects that an interpreter has, as its collector finds them, for score_objects.py."""
import gc
from types import CodeType


def write_types(path):
    """Writes the address and the type of each object that the collector knows or that leads from one that it knows."""
    seen, rest = {}, gc.get_objects()
    while rest:
        found = rest.pop()
        if id(found) not in seen:
            seen[id(found)] = type(found).__name__
            rest.extend(gc.get_referents(found))
            if isinstance(found, CodeType):  # the collector does not know what these lead to
                rest.extend((found.co_consts, found.co_names, found.co_linetable, found.co_exceptiontable,
                             *found.co_consts))
    with open(path, "w", encoding="utf-8") as file:
        file.writelines(f"{address:x} {name}\n" for address, name in seen.items())
