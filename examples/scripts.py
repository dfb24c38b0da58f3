"""Scripts of `qbf script` that are written by a program, and their replies."""

import subprocess


class Script:
    """The lines of a script, and how many variables there are."""

    def __init__(self, *quantifiers):
        self.lines = ["p qscript 1", *(f"scope {quantifier}" for quantifier in quantifiers)]
        self.count = 0

    def variables(self, scope, count):
        """So many new variables in a scope."""
        new = list(range(self.count + 1, self.count + count + 1))
        self.lines += [f"var {variable} {scope}" for variable in new]
        self.count += count
        return new

    def clause(self, *literals):
        self.lines.append(" ".join(map(str, ("clause", *literals, 0))))

    def ask(self, *commands):
        self.lines += commands

    def __str__(self):
        return "\n".join(self.lines)


def verdicts(replies):
    """Each verdict of the replies, with the values told behind it by variable."""
    found = []
    for words in (line.split() for line in replies):
        if words[0] in ("SAT", "UNSAT", "UNKNOWN"):
            found.append((words[0], {}))
        elif words[0] == "value":
            literal = int(words[1])
            found[-1][1][abs(literal)] = literal > 0
    return found


class Dialogue:
    """A solver at the other end of two pipes, which replies to each command before it reads on."""

    def __init__(self, program):
        self.solver = subprocess.Popen([program, "script"], stdin=subprocess.PIPE, stdout=subprocess.PIPE, text=True)

    def __enter__(self):
        return self

    def __exit__(self, *_):
        self.solver.stdin.close()
        self.solver.stdout.close()
        self.solver.wait()

    def tell(self, *commands):
        """Commands that have no reply."""
        for command in commands:
            print(command, file=self.solver.stdin, flush=True)

    def clause(self, *literals):
        self.tell(" ".join(map(str, ("clause", *literals, 0))))

    def ask(self, command):
        """The words of a reply of one line."""
        self.tell(command)
        return self.solver.stdout.readline().split()

    def values(self, variables):
        """The winner's values of variables, as literals."""
        return [int(self.ask(f"value {variable}")[1]) for variable in variables]
