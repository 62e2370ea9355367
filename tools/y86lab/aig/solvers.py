"""Solvers that are installed. Each is asked whether an output can be 1."""
from __future__ import annotations

import os
import shutil
import subprocess
from dataclasses import replace

from ..calls import LONG
from .network import Clauses, Network, blif, clauses_of, dimacs

SOLVERS = ("cadical", "minisat", "z3", "berkeley-abc", "abc", "yosys")
# Those that read clauses.
OF_CLAUSES = ("cadical", "minisat", "z3")


class SolverFault(Exception):
    """What a solver says that gives no answer."""


def installed(wanted: list[str]) -> list[str]:
    return [solver for solver in wanted or SOLVERS if shutil.which(solver)]


def called(words: list[str]) -> subprocess.CompletedProcess[str]:
    return subprocess.run(words, stdin=subprocess.DEVNULL, capture_output=True, text=True, timeout=LONG, check=False)


def written(folder: str, name: str, text: str) -> str:
    path = os.path.join(folder, name)
    with open(path, "w", encoding="ascii") as file:
        file.write(text)
    return path


def fault(solver: str, answer: subprocess.CompletedProcess[str]) -> SolverFault:
    return SolverFault(f"{solver}: {answer.stdout}{answer.stderr}")


def can_be_met(solver: str, clauses: Clauses, variables: int, folder: str) -> bool:
    """Whether clauses can be met."""
    path = written(folder, "query.cnf", dimacs(clauses, variables))
    if solver == "minisat":
        answer = called(["minisat", "-verb=0", path, os.path.join(folder, "model")])
    else:
        answer = called([solver, "-dimacs" if solver == "z3" else "-q", path])
    words = answer.stdout.upper()
    if "SAT" not in words:
        raise fault(solver, answer)
    return "UNSAT" not in words


def can_be_one_by_abc(solver: str, network: Network, output: int, folder: str) -> bool:
    alone = replace(network, outputs=[network.outputs[output]])
    path = written(folder, "query.blif", blif(alone))
    answer = called([solver, "-c", f"read_blif {path}; strash; sat"])
    if "SATISFIABLE" not in answer.stdout:
        raise fault(solver, answer)
    return "UNSATISFIABLE" not in answer.stdout


def can_be_one_by_yosys(text: str, network: Network, output: int, folder: str) -> bool:
    path, log = written(folder, "query.aag", text), os.path.join(folder, "log")
    query = f"read_aiger {path}; tee -o {log} sat -set {network.names[f'o{output}']} 1"
    answer = called(["yosys", "-q", "-p", query])
    try:
        with open(log, encoding="ascii") as file:
            said = file.read()
    except OSError as missing:
        raise fault("yosys", answer) from missing
    if "model found" not in said:
        raise fault("yosys", answer)
    return "no model found" not in said


def can_be_one(solver: str, text: str, network: Network, output: int, folder: str) -> bool:
    """Whether an output of a network, which has this text, can be 1."""
    if solver == "yosys":
        return can_be_one_by_yosys(text, network, output, folder)
    if solver.endswith("abc"):
        return can_be_one_by_abc(solver, network, output, folder)
    return can_be_met(solver, clauses_of(network, output), network.most + 1, folder)
