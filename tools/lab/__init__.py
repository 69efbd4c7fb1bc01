"""What the tools share: disks in user-mode Linux and what may befall them, guests that are cut off, runs side by side, and a model of
the program. A script of tools/ has its options and what it prints, sets `sys.dont_write_bytecode`, and imports from here, never from
another script. A module here has one subject, a function at most 60 lines and five blocks in each other. A C program is a file of
its own, and is compiled with warnings on (host.py)."""
import os

TOOLS = os.path.dirname(os.path.dirname(os.path.realpath(__file__)))
TOP = os.path.dirname(TOOLS)


class Trouble(Exception):
    """The guest or a tool doesn't work, so nothing is known of the program."""
