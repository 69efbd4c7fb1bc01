"""Kernels: their modules, each behind those that it needs."""
import glob
import lzma
import os
import re


def module_bytes(path):
    """A module as the kernel takes it."""
    with open(path, "rb") as file:
        data = file.read()
    return lzma.decompress(data) if path.endswith(".xz") else data


class Modules:
    """A kernel's modules by their names."""

    def __init__(self, folder):
        self.paths = {}
        for path in glob.glob(f"{folder}/**/*.ko*", recursive=True):
            self.paths[os.path.basename(path).split(".ko")[0].replace("-", "_")] = path

    def in_order(self, names, done=None):
        """These modules, each behind those that it needs. What isn't there is taken for built in."""
        done = {} if done is None else done
        for name in names:
            name = name.replace("-", "_")
            if name in self.paths and name not in done:
                data = module_bytes(self.paths[name])
                needs = re.search(rb"\0depends=([^\0]*)\0", b"\0" + data)
                self.in_order([it for it in needs[1].decode().split(",") if it] if needs else [], done)
                done[name] = data
        return done
