"""The vectors of the types outside of the core, a module each: they are read with the set of all types, and their streams again
with the core."""
from tools import stream_copies
import decimals
import fixed_size_lists
import floating
import intervals
import maps
import worked_examples
from results import ALL, CORE, OF_ALL, answers
from table import STANDARD

MODULES = floating, intervals, maps, decimals, fixed_size_lists
# The prefix of the names of the same streams when they are read with the core.
OF_CORE = "core/"
REFUSED = "refuse Unsupported at 0\nend Unsupported at 0\n"
# For these the fault has a lower number.
VERSION_3 = "version_3_of_"


def of_modules(its):
    """What each module has, keyed by names that no other module has."""
    found = {}
    for held in map(its, MODULES):
        assert not found.keys() & held.keys()
        found |= held
    return found


def vectors():
    """The vectors keyed by their names: whom each binds, what it is about, and its bytes."""
    return {f"{OF_ALL}{name}": it for name, it in of_modules(lambda module: module.vectors()).items()}


def families():
    """The files of changes keyed by their names: what each is about, its base, and its lines."""
    its = of_modules(lambda module: module.conditions() | module.of_each_length(ALL))
    return {f"{OF_ALL}{name}": (about, f"{OF_ALL}{base}", lines) for name, (about, base, lines) in its.items()}


def with_the_core():
    """The answers for the same streams with the core, keyed by names with another prefix: their text and their bytes."""
    found = {}
    for name, (_, about, held) in vectors().items():
        found[OF_CORE + name.removeprefix(OF_ALL)] = f"{about}, with the core\nbinds own\n{answers(held, CORE)}", held
    for name, (about, base, lines) in of_modules(lambda module: module.of_each_length(CORE)).items():
        found[f"{OF_CORE}{name}.changes"] = "".join(f"{it}\n" for it in [about, f"base {OF_CORE}{base}", *lines]), b""
    return {name: (text.encode(), held) for name, (text, held) in found.items()}


def copies_in(module):
    """What is written for a module's vectors, keyed by names NAME.copyWAY: for some another vector or the same one, for the
    others what tools/stream_copies.py writes, if the schema is one of tools/frames.py."""
    its = module.vectors()
    found = {f"{name}.copy0": its[word][2] for name, word in [*module.WRITTEN.items(), *((it, it) for it in module.AS_IT_IS)]}
    for at, (name, (binds, _, held)) in enumerate(its.items()):
        if binds == STANDARD and name not in (*module.WRITTEN, *module.foreign()):
            for way in (0, 3) if "hidden" in name or "dictionary" in name else (at % 4,):
                found.setdefault(f"{name}.copy{way}", stream_copies.copy(held, way, ALL))
    return found


def copies():
    """The same for all modules."""
    return {f"{OF_ALL}{name}": held for name, held in of_modules(copies_in).items()}


def check(files):
    """Where what is generated or answered differs from what is written out."""
    its = [it for module in MODULES for it in module.written_out()]
    its += [(f"{name} with the core", answers(held, CORE), REFUSED) for name, (_, _, held) in vectors().items()
        if not name.startswith(OF_ALL + VERSION_3)]
    its += [(f"the copy of {it}", stream_copies.copy(held, 0, ALL), held) for module in MODULES for it in module.AS_IT_IS
        for held in [module.vectors()[it][2]]]
    stated = {it.__name__: {f"{OF_ALL}{name}": lines for name, lines in it.STATED.items()} for it in MODULES if it is not floating}
    return [*(it for name, lines in stated.items() for it in worked_examples.lacking(files, name, lines)),
        *(f"{name}: not as it is written out" for name, held, expected in its if held != expected)]
