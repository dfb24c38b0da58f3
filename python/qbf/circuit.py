"""Circuits: what certifies a verdict, read and evaluated."""

from __future__ import annotations

from collections.abc import Mapping


class Circuit:
    """An and-inverter graph by which the side that wins plays.

    Its inputs are the variables of the loser and its outputs those of the winner. An output rests on inputs of earlier
    scopes alone.
    """

    def __init__(self, text: str, binary: bytes) -> None:
        self._text = text
        self._binary = binary
        lines = text.splitlines()
        _, _, inputs, _, outputs, gates = lines[0].split()
        first, middle = 1 + int(inputs), 1 + int(inputs) + int(outputs)
        last = middle + int(gates)
        self._outputs = [int(line) for line in lines[first:middle]]
        self._gates = [tuple(map(int, line.split())) for line in lines[middle:last]]
        names = [line.split() for line in lines[last : last + int(inputs) + int(outputs)]]
        #: The variables of the loser, in the order of the prefix.
        self.inputs = [int(number) for place, number in names if place[0] == "i"]
        #: The variables of the winner, in the order of the prefix.
        self.outputs = [int(number) for place, number in names if place[0] == "o"]
        #: Whether the formula is true, so that this is a Skolem circuit, and not a Herbrand circuit.
        self.truth = lines[-1] == "skolem"

    def __len__(self) -> int:
        """How many gates it has."""
        return len(self._gates)

    def __repr__(self) -> str:
        kind = "Skolem" if self.truth else "Herbrand"
        return f"<{kind} circuit of {len(self.inputs)} inputs, {len(self.outputs)} outputs, {len(self)} gates>"

    def evaluate(self, values: Mapping[int, bool]) -> dict[int, bool]:
        """The values of the outputs, by variable, for these values of the inputs. What isn't an input is ignored."""
        wires = [False] * (1 + len(self.inputs) + len(self._gates))
        for place, variable in enumerate(self.inputs, 1):
            wires[place] = bool(values[variable])
        for gate, left, right in self._gates:
            wires[gate >> 1] = wires[left >> 1] != left & 1 and wires[right >> 1] != right & 1
        return {variable: wires[edge >> 1] != edge & 1 for variable, edge in zip(self.outputs, self._outputs)}

    __call__ = evaluate

    def aag(self) -> str:
        """The circuit in AIGER 1.9, in ASCII."""
        return self._text

    def aig(self) -> bytes:
        """The circuit in AIGER 1.9, in the binary form."""
        return self._binary
