"""Judges what `rt check` said of a crate with mutants in it: what refuses a function, and whether that shows anything.

A mutant's function is refused where a goal of it is left open, or an answer in its proof files is wrong. A proof file that names what
the mutant took away, as a step or a goal that now has another name, shows nothing: a right body of that shape would fail there too.
A goal left open next to such a name counts only where the prover found values at which it is false.
"""
import collections
import re

# The prover's lines about a proof file that names what is not there, or that rests on what was refused.
ABSENT = re.compile(r"has no field|is not in scope|has no `|was not admitted|were not checked|was not checked")
ABSENT_GOAL = re.compile(r"Goals` has no `|`goal\.")
IS_FALSE = "allow values at which this goal is false"
GOAL = re.compile(r"^wrong answer, `([^`]+)`|\(`([^`]+)`\)")


def is_of_a_call(refusal):
    """Whether a refusal is of what a call requires."""
    found = GOAL.search(refusal)
    return found is not None and "requires" in (found[1] or found[2])


class Said:
    """What a check said of each function."""

    def __init__(self, text, crate):
        self.text = text
        self.is_proved = re.search(r"^logic=proved |^only=(\d+) proved=\1$", text, re.M) is not None
        self.is_judged = re.search(r"^logic=(not-)?proved|^only=\d+ proved=", text, re.M) is not None
        self.functions = {}
        errors, goals = collections.defaultdict(list), []
        for line in text.splitlines():
            error = re.match(r"(?:\./)?proofs/(\S+)/\w+\.antt:\d+:\d+: error: (.*)", line)
            goal = re.match(r"note: (src/\S+) it is not proved (.*)", line)
            verdict = re.match(rf"(?:fn|impl|struct|enum|trait|type) {crate}::(\S+): (.*)", line)
            if error:
                errors[error[1].replace("/", "::")].append(error[2])
            elif goal:
                goals.append(goal[2])
            elif verdict:
                # (the goals that a function leaves open are right above its verdict)
                self.functions[verdict[1]] = (verdict[2], goals)
                goals = []
        self.errors = errors

    def evidence(self, function):
        """What refuses a function or a closure in it, the strongest first; and what of its proof files names what is absent."""
        path, _, last = function.rpartition("::")
        inside = f"{path}::fn::{last}::".removeprefix("::")
        refusals, absent = [], []
        for name in {*self.functions, *self.errors}:
            if name == function or name.startswith(inside):
                found, gone = self.of_one(name)
                refusals += found
                absent += gone
        return sorted(refusals, key=is_of_a_call), absent

    def of_one(self, name):
        verdict, goals = self.functions.get(name, ("", []))
        absent = [it for it in self.errors[name] if ABSENT.search(it)]
        wrong = [f"wrong answer, {it}" for it in self.errors[name] if not ABSENT.search(it)]
        if any(ABSENT_GOAL.search(it) for it in absent):
            goals = [it for it in goals if IS_FALSE in it]
        elif not goals and "did not prove" in verdict:
            goals = [re.sub(r"^.*?`search` did not prove", "of", verdict)]
        return wrong + [f"not proved {it}" for it in goals], absent

    def of_law(self, function):
        """What refuses a law, of which a definition was changed: the first error of the proofs, where the definitions still hold together."""
        errors = re.findall(r"^(?:\./)?(\w+)/\S+: error: (.*)", self.text, re.M)
        is_refused = self.functions.get(function, ("", []))[0].startswith("not proved") and all(it == "proofs" for it, _ in errors)
        return [text for _, text in errors[:1]] if is_refused else []

    def first_error(self):
        found = re.search(r"^.*\berror\b.*$|^rattle: .*$|^rt: .*$", self.text, re.M)
        return found[0][:200] if found else "the check said nothing"

    def places(self):
        """Where the compiler refuses the sources: the file and the line, counted from 0."""
        return [(path, int(line) - 1) for path, line in re.findall(r"(src/\S+?\.rt):(\d+):\d+: error", self.text)]
