"""AIGER files in ASCII without latches: reading them, their values, and the same as CNF and as BLIF."""
from __future__ import annotations

from dataclasses import dataclass
from typing import Sequence

Clauses = list[list[int]]


@dataclass(frozen=True)
class And:
    """A gate: three literals."""

    left: int
    first: int
    second: int


@dataclass(frozen=True)
class Network:
    """A file: its largest variable, its inputs and outputs as literals, its gates in their order, its symbols."""

    most: int
    inputs: list[int]
    outputs: list[int]
    gates: list[And]
    names: dict[str, str]

    def values(self, bits: Sequence[int]) -> list[bool]:
        """The value of each output at these bits of the inputs."""
        value = [False] * (self.most + 1)

        def value_of(literal: int) -> bool:
            return value[literal // 2] ^ bool(literal & 1)

        for literal, bit in zip(self.inputs, bits):
            value[literal // 2] = bool(bit)
        for gate in self.gates:
            value[gate.left // 2] = value_of(gate.first) and value_of(gate.second)
        return [value_of(literal) for literal in self.outputs]

    def cone(self, literals: Sequence[int]) -> list[And]:
        """The gates that some literals depend on."""
        needed = {literal // 2 for literal in literals}
        gates = []
        for gate in reversed(self.gates):
            if gate.left // 2 in needed:
                needed |= {gate.first // 2, gate.second // 2}
                gates.append(gate)
        return gates[::-1]

    def output_named(self, name: str) -> int:
        """The number of an output by its name."""
        return next(k for k in range(len(self.outputs)) if self.names.get(f"o{k}") == name)


def network_of(text: str) -> Network:
    """The network of a text."""
    lines = text.split("\n")
    if not lines[0].startswith("aag "):
        raise ValueError("not AIGER in ASCII without latches")
    most, inputs, latches, outputs, gates = (int(word) for word in lines[0].split(" ")[1:])
    if latches:
        raise ValueError("not AIGER in ASCII without latches")
    first_output = 1 + inputs
    first_gate = first_output + outputs
    symbols = [line for line in lines[first_gate + gates :] if line[:1] in ("i", "o") and " " in line]
    return Network(
        most,
        [int(line) for line in lines[1:first_output]],
        [int(line) for line in lines[first_output:first_gate]],
        [And(*map(int, line.split(" "))) for line in lines[first_gate : first_gate + gates]],
        dict(_pair(line) for line in symbols),
    )


def _pair(line: str) -> tuple[str, str]:
    symbol, _, name = line.partition(" ")
    return symbol, name


def dimacs_literal(literal: int) -> int:
    """A literal in DIMACS, where variable 1 is the constant false."""
    return -(literal // 2 + 1) if literal & 1 else literal // 2 + 1


def clauses_of(network: Network, output: int) -> Clauses:
    """Clauses that can be met exactly if the output can be 1 (G. Tseitin's encoding)."""
    clauses = [[-1], [dimacs_literal(network.outputs[output])]]
    for gate in network.cone([network.outputs[output]]):
        left, first, second = (dimacs_literal(literal) for literal in (gate.left, gate.first, gate.second))
        clauses += [[-left, first], [-left, second], [left, -first, -second]]
    return clauses


def clauses_below(network: Network, bits: Sequence[int]) -> tuple[Clauses, int]:
    """Clauses and the number of variables, met exactly if the inputs come before these bits in the order of lists."""
    clauses: Clauses = []
    places: list[int] = []
    variables, same = network.most + 1, 0
    for literal, bit in zip(network.inputs, bits):
        here = dimacs_literal(literal)
        if bit:
            variables += 1
            places.append(variables)
            clauses.append([-variables, -here])
            if same:
                clauses.append([-variables, same])
        variables += 1
        clauses.append([-variables, here if bit else -here])
        if same:
            clauses.append([-variables, same])
        same = variables
    return [*clauses, places], variables


def dimacs(clauses: Clauses, variables: int) -> str:
    lines = [" ".join(map(str, clause)) + " 0\n" for clause in clauses]
    return f"p cnf {variables} {len(clauses)}\n" + "".join(lines)


def cnf(network: Network, output: int) -> str:
    """An output as DIMACS CNF, with the names of the inputs as comments."""
    names = [
        f"c input {network.names.get(f'i{number}', number)} is variable {literal // 2 + 1}\n"
        for number, literal in enumerate(network.inputs)
    ]
    return "".join(names) + dimacs(clauses_of(network, output), network.most + 1)


def blif(network: Network) -> str:
    """Berkeley's format: a table for each gate, and one for each output."""

    def name(literal: int) -> str:
        return f"v{literal // 2}"

    def table(left: str, *rights: int) -> str:
        row = "".join("0" if literal & 1 else "1" for literal in rights)
        return f".names {' '.join(map(name, rights))} {left}\n{row} 1\n"

    parts = [
        ".model aag\n",
        f".inputs {' '.join(map(name, network.inputs))}\n",
        f".outputs {' '.join(f'o{number}' for number in range(len(network.outputs)))}\n",
        ".names v0\n",
        *[table(name(gate.left), gate.first, gate.second) for gate in network.gates],
        *[table(f"o{number}", literal) for number, literal in enumerate(network.outputs)],
    ]
    return "".join(parts) + ".end\n"
