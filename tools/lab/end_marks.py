"""End marks: Linux 7.2 takes no new name in a folder with old bytes behind its last one, and no check mends that."""
import os
import re

from lab.host import tool

# The line for a name that isn't taken, and what the kernel says if that is since old bytes stand behind the last one.
NOT_TAKEN = re.compile(r"boot_tools: \w+ (\S+): Input/output error")
END_MARK = "allocated dir entry found after end-of-directory marker"


def forget():
    """What the kernel has said so far is of other runs."""
    tool("dmesg", "--clear")


def folder_at_its_end(status, log):
    """The folder that takes no new name for that, if a run has ended so."""
    name = NOT_TAKEN.search(log)
    return os.path.dirname(name[1]) if name and status == 3 and END_MARK in tool("dmesg") else None
