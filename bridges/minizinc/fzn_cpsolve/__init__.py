"""FlatZinc in, FlatZinc's answers out, by way of the program `cpsolve`.

`flatzinc` reads; `aliases`, `bounds` and `references` say what each name stands for; `cpmodel` and `encoding` write the
CpModel; `constraints` has one file for each family; `objective` and `search` say what is sought and in which order;
`solver` runs the program once and `session` as often as MiniZinc's options ask; `answers` writes what MiniZinc reads.
"""
