"""Solves one model on many machines, over the scheduler of Dask, and believes none of them.

`model` reads the model, `cubes` cuts it, `machine` is what runs elsewhere, and `cluster` speaks with Dask. `search`
sends cubes out and judges what comes back, and `known` is what came of it. `program` runs the solver's other commands
here, above all its checker. `response` reads and writes responses, `journal` keeps what is closed, `command` reads the
words.
"""
