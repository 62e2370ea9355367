"""AIGER texts, evaluated line by line: the tests' own reader."""
class Aag:
    """A text without latches: its inputs and outputs as literals, and its ANDs in their order."""

    def __init__(self, text):
        lines = text.split("\n")
        self.most, inputs, _, outputs, ands = (int(n) for n in lines[0].split(" ")[1:])
        at = 1 + inputs
        self.inputs = [int(line) for line in lines[1:at]]
        self.outputs = [int(line) for line in lines[at : at + outputs]]
        self.ands = [tuple(int(n) for n in line.split(" ")) for line in lines[at + outputs : at + outputs + ands]]

    def values(self, bits):
        """The value of each output at these bits of the inputs."""
        value = [False] * (self.most + 1)
        for literal, bit in zip(self.inputs, bits):
            value[literal // 2] = bool(bit)
        for left, first, second in self.ands:
            value[left // 2] = (value[first // 2] ^ (first & 1)) and (value[second // 2] ^ (second & 1))
        return [bool(value[x // 2] ^ (x & 1)) for x in self.outputs]


def draws(seed, vector, count):
    """Bits of the further inputs of a vector: bit 33 of each x = 6364136223846793005 x + 1442695040888963407, modulo 2^64."""
    x, bits = (seed + vector) % 2**64, []
    for _ in range(count):
        x = (x * 6364136223846793005 + 1442695040888963407) % 2**64
        bits.append(x >> 33 & 1)
    return bits


def counts(text, seed):
    """How often each output is 1 in the 512 vectors of `aigrun`, as it prints that."""
    aag = Aag(text)
    found = [0] * len(aag.outputs)
    for vector in range(512):
        bits = [vector >> k & 1 for k in range(min(9, len(aag.inputs)))] + draws(seed, vector, len(aag.inputs) - 9)
        found = [n + value for n, value in zip(found, aag.values(bits))]
    return "".join(f"o{k} {n}\n" for k, n in enumerate(found))
