"""Runs what the pages show, and compares what comes with what they show.

Blocks of a page that begin with a command are run in the order in which they stand, in one shell, in
a copy of the pages and examples. Each other block has to stand in what was printed, or in a file of
the folder where the shell is then. `blocks` reads a page, `shell` runs, `compare` has the rule by
which two texts are alike, `marks` lists what is not run and why, and `walks` puts these together.

Two kinds of comments, which readers do not see, help where prose tells what is done:

    <!-- run: cd examples/three-stops && lintim make -->
    <!-- file: basis/Stop.giv -->

The first is run like a block. The second has the block after it written to that file.
"""
