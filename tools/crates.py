"""The crates of this checkout, what each stands on, and how the prover is told of it."""
import os
import shutil
import sys
import types

TOP = os.path.dirname(os.path.dirname(os.path.realpath(__file__)))


def find_kit():
    """The folder of the kit whose `rt` is on the PATH."""
    rt = shutil.which('rt')
    if not rt:
        sys.exit('put the command rt of the Rattle kit on the PATH')
    return os.path.dirname(os.path.dirname(os.path.realpath(rt)))


def read_crates(top=TOP):
    """The libraries that each crate of crates.txt stands on, the kit's among them."""
    found = {}
    with open(f'{top}/crates.txt', encoding='utf-8') as file:
        for line in file:
            name, colon, below = line.split('#')[0].partition(':')
            if colon:
                found[name.split()[0]] = below.split()
    return found


def all_below(crate, crates):
    """The crates of the repository that this one stands on, at any depth."""
    found, left = [], list(crates[crate])
    while left:
        name = left.pop()
        if name in crates and name not in found:
            found.append(name)
            left += crates[name]
    return found


def root_file(crate, top=TOP):
    """The file with which the crate begins, in its folder."""
    return 'src/main.rt' if os.path.exists(f'{top}/crates/{crate}/src/main.rt') else 'src/lib.rt'


def library(crate, top=TOP):
    """Where the crate's library is built."""
    return f'{top}/crates/{crate}/out/rlib/{crate}.rlib'


def lacking(crate, crates, gate=TOP):
    """The crates below this one whose library isn't built in the checkout `gate`."""
    return [name for name in all_below(crate, crates) if not os.path.exists(library(name, gate))]


def prover_words(crate, crates, gate=TOP):
    """What the prover is told of the crate, whose folder it is run in, over the libraries that are built in the checkout `gate`."""
    kit = find_kit()
    words = ['--crate-name', crate, root_file(crate), '--extern', f'std={kit}/rlibs/std.rlib']
    for name in crates[crate]:
        words += ['--extern', f'{name}={library(name, gate) if name in crates else f"{kit}/rlibs/{name}.rlib"}']
    words += ['-L', f'dependency={kit}/rlibs']
    for name in all_below(crate, crates):
        words += ['-L', f'dependency={os.path.dirname(library(name, gate))}']
    logic = ['--antt-project', f'{kit}/rattle/logic/antt-project.json', '--logic-built', f'{kit}/logic_built']
    return [*words, *logic, '--links', f'{crate}=']


def load_rt():
    """The kit's `rt` as a module, less its last lines, by which it runs."""
    kit = find_kit()
    sys.path.insert(0, f'{kit}/bin')
    module = types.ModuleType('rt')
    module.__file__ = f'{kit}/bin/rt'
    with open(module.__file__, encoding='utf-8') as file:
        text = file.read()
    exec(compile(text[: text.rindex('\nif __name__')], module.__file__, 'exec'), module.__dict__)
    return module
