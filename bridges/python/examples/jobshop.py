"""A job shop: three jobs on three machines, each of which does one operation at a time.

jobshop.py [MODEL RESPONSE] prints the plan, and writes the model and its response to these files.
"""

import sys

import cpsolve
from cpsolve.cp_model_pb2 import CpModelProto
from texts import write_texts

# The operations of each job in order: a machine, and for how many hours it is taken.
JOBS = [[(0, 3), (1, 2), (2, 2)], [(0, 2), (2, 1), (1, 4)], [(1, 4), (2, 3), (0, 1)]]
HORIZON = sum(hours for job in JOBS for _, hours in job)


def add_time(model, name):
    """Adds a time from 0 to the horizon, and returns its variable."""
    model.variables.add(name=name, domain=[0, HORIZON])
    return len(model.variables) - 1


def add_operation(model, name, start, hours):
    """Adds the interval of an operation, and returns its constraint."""
    ends = {
        "start": {"vars": [start], "coeffs": [1]},
        "size": {"offset": hours},
        "end": {"vars": [start], "coeffs": [1], "offset": hours},
    }
    model.constraints.add(name=name, interval=ends)
    return len(model.constraints) - 1


def add_order(model, first, hours, second):
    """Lets the second time come at least `hours` after the first."""
    difference = {"vars": [second, first], "coeffs": [1, -1], "domain": [hours, HORIZON]}
    model.constraints.add(linear=difference)


def job_shop():
    """The model, and for each job the variables of the times at which its operations start."""
    model = CpModelProto(name="job shop")
    done = add_time(model, "done")
    on_machine = {machine: [] for job in JOBS for machine, _ in job}
    starts = []
    for number, job in enumerate(JOBS):
        starts.append([add_time(model, f"start of {number}.{step}") for step in range(len(job))])
        for step, (machine, hours) in enumerate(job):
            interval = add_operation(model, f"{number}.{step}", starts[-1][step], hours)
            on_machine[machine].append(interval)
            add_order(model, starts[-1][step], hours, [*starts[-1], done][step + 1])
    for machine, intervals in sorted(on_machine.items()):
        model.constraints.add(name=f"machine {machine}", no_overlap={"intervals": intervals})
    model.objective.vars.append(done)
    model.objective.coeffs.append(1)
    return model, starts


def main():
    model, starts = job_shop()
    response = cpsolve.solve(model)
    print(f"all is done after {response.objective_value:.0f} hours")
    for number, job in enumerate(JOBS):
        steps = (f"machine {m} at {response.solution[s]}" for (m, _), s in zip(job, starts[number]))
        print(f"job {number}:", ", ".join(steps))
    write_texts(model, response, sys.argv[1:])


if __name__ == "__main__":
    main()
