"""Models: what a command does on a plain folder, beside which each run on a disk is judged."""
import collections
import os
import shutil
import subprocess

from lab import Trouble
from lab.cases import LIST
from lab.disks import ROOM, make_files
from lab.traps import environment, log_of
from lab.trees import EMPTY, View, digests_of, steps_between

# What a command replies on a plain folder, and leaves.
Model = collections.namedtuple("Model", "status text tree steps")


class Models:
    """Runs the program, and knows what each command does with each tree. Folders of some names are passed over."""

    def __init__(self, program):
        self.program, self.store, self.models, self.passed, self.log = program, {EMPTY: b""}, {}, set(), ""

    def run(self, words, folder):
        """The program's status in a folder, and what it prints. At 3 its log is kept."""
        ran = subprocess.run([self.program, *words], cwd=folder, capture_output=True, check=False, env=environment())
        if ran.returncode > 125 or ran.returncode < 0:
            raise Trouble(f"the program doesn't run in the guest: {words} {ran.returncode} {ran.stderr[-300:]}")
        self.log = log_of(ran.stderr) if ran.returncode == 3 else self.log
        return ran.returncode, ran.stdout.decode(errors="replace")

    def keep(self, folder):
        """The tree below a folder, each of whose files is known from then on."""
        tree = View(folder, self.passed).tree
        for path, it in tree.items():
            if it not in self.store:
                with open(f"{folder}/{path}", "rb") as file:
                    self.store[it] = file.read()
        return frozenset(tree.items())

    def after(self, tree, words):
        """What a command does on a plain folder with these files."""
        key = tree, tuple(words)
        if key not in self.models:
            folder = f"{ROOM}/model"
            shutil.rmtree(folder, ignore_errors=True)
            os.makedirs(f"{folder}/efi")
            make_files({path: self.store[it] for path, it in sorted(tree)}, folder)
            status, text = self.run(words, folder)
            then = self.keep(folder)
            self.models[key] = Model(status, text, then, steps_between(tree, then, text))
        return self.models[key]

    def after_reply(self, allowed, words, status, text):
        """The trees that may be there after a command with this status and text, or with any text. A list shows bytes
        that no reply has told of, but promises nothing of them."""
        models = [self.after(tree, words) for tree in allowed]
        if status == 3:
            return {*allowed, *(step for model in models for step in model.steps)}
        after = {model.tree for model in models if model.status == status and text in (None, model.text)}
        is_sure = words != LIST or len({frozenset(digests_of(tree)) for tree in allowed}) == 1
        return after if is_sure or not after else set(allowed)
