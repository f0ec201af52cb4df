"""The list of the repository's crates, crates.txt, as scripts read it. Needs no kit.

A line of crates.txt is `NAME WORD..: LIBRARY..`: a crate, what it is built to beside its own form, and the libraries that it stands on,
some of which are the kit's. `#` begins a comment.
"""
import os

TOP = os.path.dirname(os.path.dirname(os.path.realpath(__file__)))
LIST = os.path.join(TOP, 'crates.txt')


def lines(path=LIST):
    """The lines of a list by their crates, in its order, without comments."""
    with open(path, encoding='utf-8') as text:
        found = [line.partition('#')[0] for line in text]
    return {line.split(':')[0].split()[0]: line for line in found if ':' in line}


def libraries(path=LIST):
    """The libraries that each crate names, the kit's among them."""
    return {name: line.partition(':')[2].split() for name, line in lines(path).items()}


def named(path=LIST):
    """The crates of the list that each crate names."""
    on = libraries(path)
    return {name: [lower for lower in lowers if lower in on] for name, lowers in on.items()}


def below(on):
    """All crates that each crate stands on, each behind those that it stands on itself."""
    found = {}

    def add(name):
        if name not in found:
            found[name] = list(dict.fromkeys(it for lower in on[name] for it in [*add(lower), lower]))
        return found[name]
    for name in on:
        add(name)
    return found
