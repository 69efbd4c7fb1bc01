"""A model of the program that was written apart from it, from the rules alone (docs/DECISIONS.md, docs/REFUSALS.md).

It knows files, commands and texts, and of a stop or a fault what may be left of a command: the files before it or after it, and of
a rename also the steps between, with its intent. Bytes are characters of latin-1 throughout."""
