"""The bridge from pseudo-Boolean instances, CNF and weighted CNF to `cpsolve`.

`opb` and `dimacs` read the files into an `instance`, `model` writes that as a CpModel, `program` runs the solver, and
`search` asks it until the answer is known. `answer` writes the lines of the competitions, `command` reads the words.
"""
