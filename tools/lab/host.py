"""The host: other programs that a tool runs, C files that it makes programs of, and files that it writes."""
import glob
import os
import shutil
import subprocess

from lab import TOOLS, Trouble

WARNINGS = ["-Wall", "-Wextra", "-Werror"]


def tool(*words, allowed=(0,)):
    """What a tool prints. Another status than those allowed is trouble."""
    env = os.environ | {"MTOOLS_SKIP_CHECK": "1", "LC_ALL": "C", "PATH": os.environ["PATH"] + ":/usr/sbin:/sbin"}
    if not shutil.which(words[0], path=env["PATH"]):
        raise Trouble(f"{words[0]} isn't there")
    ran = subprocess.run(words, env=env, stdin=subprocess.DEVNULL, stdout=-1, stderr=-2, text=True, errors="replace")
    if allowed and ran.returncode not in allowed:
        raise Trouble(f"{' '.join(words)}: status {ran.returncode}: {ran.stdout}")
    return ran.stdout


def copy(disk, target):
    """Copies a disk, with its holes."""
    tool("cp", "--sparse=always", disk, target)
    return target


def quoted(word):
    """A word as the guest's shell takes it."""
    return "'" + word.replace("'", "'\\''") + "'"


def newest(pattern):
    """The last of the files that match, and an empty text where there is none."""
    return (sorted(glob.glob(pattern)) or [""])[-1]


def write_files(files, folder):
    """Writes files into a folder, with the folders above them."""
    for name, data in files.items():
        path = os.path.join(folder, name)
        os.makedirs(os.path.dirname(path), exist_ok=True)
        with open(path, "wb") as file:
            file.write(data)


def compile_program(name, folder):
    """Makes a program of a C file beside this one. It gives the path."""
    program = f"{folder}/{name}"
    tool("cc", "-O1", *WARNINGS, "-o", program, f"{TOOLS}/lab/{name}.c")
    return program


def compile_library(name, folder):
    """Makes a library of a C file beside this one, to be loaded before others. It gives the path."""
    library = f"{folder}/{name}.so"
    tool("cc", "-O1", *WARNINGS, "-shared", "-fPIC", "-o", library, f"{TOOLS}/lab/{name}.c")
    return library
