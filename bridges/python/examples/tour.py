"""A tour through six towns and back, by the shortest way.

tour.py [MODEL RESPONSE] prints the tour, and writes the model and its response to these files.
"""

import sys
from itertools import permutations

import cpsolve
from cpsolve.cp_model_pb2 import CpModelProto
from texts import write_texts

# The distance from each town to those after it.
DISTANCES = [[12, 29, 22, 13, 24], [19, 3, 25, 6], [21, 23, 28], [4, 5], [16]]
TOWNS = len(DISTANCES) + 1


def distance(one, other):
    """How far two towns are from each other."""
    near, far = sorted((one, other))
    return DISTANCES[near][far - near - 1]


def tour():
    """The model, and for each way from town to town the variable that is 1 where it is taken."""
    model = CpModelProto(name="tour")
    ways = {way: variable for variable, way in enumerate(permutations(range(TOWNS), 2))}
    for one, other in ways:
        model.variables.add(name=f"{one} to {other}", domain=[0, 1])
    circuit = model.constraints.add(name="tour").circuit
    circuit.tails.extend(one for one, _ in ways)
    circuit.heads.extend(other for _, other in ways)
    circuit.literals.extend(ways.values())
    model.objective.vars.extend(ways.values())
    model.objective.coeffs.extend(distance(*way) for way in ways)
    return model, ways


def towns_in_order(ways, solution):
    """The towns of a tour from town 0 and back to it."""
    after = {one: other for (one, other), taken in ways.items() if solution[taken]}
    towns = [0]
    while len(towns) <= TOWNS:
        towns.append(after[towns[-1]])
    return towns


def main():
    model, ways = tour()
    response = cpsolve.solve(model)
    towns = towns_in_order(ways, response.solution)
    print(f"a tour of length {response.objective_value:.0f}:", *towns)
    write_texts(model, response, sys.argv[1:])


if __name__ == "__main__":
    main()
