"""What the tools of this folder share: where the repository is, its files, and how a tool ends for wrong arguments."""
import os
import sys

# what a tool looks into no further: what rt makes and keeps, what the other builds make, and git's own
NOT_READ = ('out', 'target', '.git')


def fail(message):
    """Says what is wrong, and ends as for wrong arguments."""
    print(f'{os.path.basename(sys.argv[0])}: {message}', file=sys.stderr)
    sys.exit(2)


def repository_root():
    """The nearest folder, from the present one up, that has a crates.txt."""
    folder = os.getcwd()
    while not os.path.isfile(os.path.join(folder, 'crates.txt')):
        if folder == os.path.dirname(folder):
            fail('no crates.txt in this folder or above it')
        folder = os.path.dirname(folder)
    return folder


def files_below(folder, *endings):
    """The files below a folder whose names end so, in their order; what was made there is left out."""
    for parent, folders, names in os.walk(folder):
        folders[:] = sorted(name for name in folders if name not in NOT_READ)
        for name in sorted(names):
            if name.endswith(endings):
                yield os.path.join(parent, name)
