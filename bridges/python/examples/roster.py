"""A roster: four clerks and three days with an early, a late and a night shift of eight hours each.
After a shift a clerk has eleven hours of rest, and each has two shifts or three. The clerks have
given points to the shifts, the more the less they like them.

roster.py [MODEL RESPONSE] prints the plan, and writes the model and its response to these files.
"""

import sys

import cpsolve
from cpsolve.cp_model_pb2 import CpModelProto
from texts import write_texts

CLERKS = ["Ann", "Bob", "Cem", "Dee"]
DAYS = ["Mon", "Tue", "Wed"]
# The hour of the day at which each shift begins.
SHIFTS = {"early": 6, "late": 14, "night": 22}
HOURS, REST = 8, 11
# How many shifts a clerk has.
LEAST_AND_MOST = [2, 3]
# The points of each clerk for the shifts of Monday, of Tuesday and of Wednesday.
POINTS = [
    [1, 3, 5, 2, 1, 5, 4, 3, 5],
    [4, 2, 1, 3, 3, 2, 1, 4, 1],
    [2, 2, 3, 5, 2, 1, 3, 1, 4],
    [3, 1, 4, 1, 5, 4, 2, 3, 3],
]


def shift_names_and_hours():
    """The shifts in order of time, each with the hour of the week at which it begins."""
    return [
        (f"{day} {shift}", 24 * number + hour)
        for number, day in enumerate(DAYS)
        for shift, hour in SHIFTS.items()
    ]


def add_turn(model, name, hour):
    """Adds whether a clerk has a shift, and an interval of the shift and the rest after it, which
    is present if so. Returns the variable and the interval's constraint."""
    model.variables.add(name=name, domain=[0, 1])
    turn, size = len(model.variables) - 1, HOURS + REST
    ends = {"start": {"offset": hour}, "size": {"offset": size}, "end": {"offset": hour + size}}
    model.constraints.add(name=name, enforcement_literal=[turn], interval=ends)
    return turn, len(model.constraints) - 1


def roster():
    """The model, and for each clerk a variable for each shift, 1 where the clerk has it."""
    model = CpModelProto(name="roster")
    shifts = shift_names_and_hours()
    turns = []
    for clerk, points in zip(CLERKS, POINTS):
        own, intervals = zip(*(add_turn(model, f"{clerk} {name}", hour) for name, hour in shifts))
        turns.append(own)
        model.constraints.add(name=clerk, no_overlap={"intervals": intervals})
        count = {"vars": own, "coeffs": [1] * len(own), "domain": LEAST_AND_MOST}
        model.constraints.add(linear=count)
        model.objective.vars.extend(own)
        model.objective.coeffs.extend(points)
    for literals in zip(*turns):
        model.constraints.add(exactly_one={"literals": literals})
    return model, turns


def main():
    model, turns = roster()
    response = cpsolve.solve(model)
    print(f"a roster of {response.objective_value:.0f} points")
    shifts = shift_names_and_hours()
    for clerk, own in zip(CLERKS, turns):
        names = (name for (name, _), turn in zip(shifts, own) if response.solution[turn])
        print(f"{clerk}:", ", ".join(names))
    write_texts(model, response, sys.argv[1:])


if __name__ == "__main__":
    main()
