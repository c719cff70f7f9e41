"""Makes random dialogues of two ends, neither of which keeps all rules, for tests/fuzz.py and tests/facts.py. In some,
the messages go to and fro in one transaction, with components that mostly fit what came before, and often once too
many; in others the ends have few transaction IDs, and send anything. More of these records have the kinds F8 to F15
than of those that tests/oracle/runs.py plays."""

import runs
from ends import ERROR, GENERAL, INVOKE, RESULT, Message, Table

CODES = [45, 46, 47, 48, 50]
# The problems that are tried; those with more conditions occur more often.
PROBLEMS = {
    GENERAL: [0, 1, 1, 2, 2],
    INVOKE: [0, 1, 2, 3, 5, 5, 6, 6, 7, 7, 8],
    RESULT: [0, 1, 1, 1, 2, 2, 3],
    ERROR: [0, 1, 1, 1, 2, 3, 4, 5],
}
ACCEPTED, REFUSED = ("AARE", 0, "user", 0), ("AARE", 1, "user", 1)


def any_table(rng):
    """Returns a table with an operation of each class, and one to which others may be linked. The invocations of some
    never expire."""
    rows = {code: (code - 44, (), rng.random() < 0.6) for code in CODES[:4]}
    rows[50] = (rng.choice([1, 1, 2, 3, 4]), rng.choice([(48,), (45, 48), (47,)]), rng.random() < 0.6)
    return Table(rows, rng.random() < 0.2)


def any_reject(rng, id, of):
    return ("reject", id, of, rng.choice(PROBLEMS[of]))


def any_component(rng):
    id, code = rng.choice([1, 1, 1, 2]), rng.choice(CODES if rng.random() < 0.97 else [99])
    of = rng.choice([GENERAL, INVOKE, INVOKE, RESULT, RESULT, ERROR])
    named = code if rng.random() < 0.3 else None
    return rng.choices(
        [
            ("invoke", id, rng.choice([1, 1, 2]) if rng.random() < 0.3 else None, code),
            ("result", id, rng.random() < 0.7, named),
            ("error", id, 1),
            any_reject(rng, id if rng.random() < 0.95 else None, of),
        ],
        [4, 3, 1, 4],
    )[0]


# ---- one transaction


class Transaction:
    """What each end invoked and answered in one transaction. One of the ends has the ID 01, and the other 07."""

    def __init__(self, rng, table):
        self.rng, self.table = rng, table
        self.first, self.second = rng.sample("AB", 2)
        self.ids = {self.first: b"\1", self.second: b"\7"}
        self.invoked, self.answered = {"A": [], "B": []}, {"A": [], "B": []}

    def answer(self, id, code, linked):
        """Returns an answer to an invocation, or a Reject of it, mostly as its class allows."""
        rng, of_class = self.rng, self.table.class_of(code) if self.rng.random() < 0.9 else 1
        success, failure = of_class in (1, 3), of_class in (1, 2)
        kind = rng.choices(["result", "error", "reject"], [6 * success, 2 * failure, 2])[0]
        if kind == "result":
            named = code if rng.random() < 0.8 else rng.choice(CODES)
            return (kind, id, rng.random() < 0.75, named if rng.random() < 0.4 else None)
        if kind == "error":
            return (kind, id, 1)
        return any_reject(rng, id, INVOKE) if linked or rng.random() < 0.4 else (kind, id, INVOKE, rng.randrange(5))

    def invoke(self, end, may_link):
        """Returns an Invoke whose ID is mostly new, and whose link is mostly allowed."""
        rng = self.rng
        used = [id for id, _, _ in self.invoked[end]]
        new = [id for id in range(1, 8) if id not in used] or used
        id = rng.choice(new if rng.random() < 0.8 else used or new)
        linked, to = rng.choice(may_link) if may_link else (None, None)
        allowed = self.table.linked(to) if rng.random() < 0.8 else ()
        return ("invoke", id, linked, rng.choice(allowed or CODES))

    def component(self, end):
        """Returns a component of that end, which mostly fits what the other end sent."""
        rng, other = self.rng, self.second if end == self.first else self.first
        invoked, answered, choice = self.invoked[other], self.answered[other], self.rng.random()
        if invoked and choice < 0.5:
            return self.answer(*rng.choice(invoked))
        if answered and choice < 0.8:
            id, of = rng.choice(answered)
            return any_reject(rng, id, GENERAL if rng.random() < 0.15 else of)
        linking = [(id, code) for id, code, _ in invoked if self.table.linked(code)]
        links_to = linking or [(1, 50)] if rng.random() < (0.4 if linking else 0.04) else []
        return self.invoke(end, links_to)

    def begin_component(self, end):
        return self.invoke(end, [])

    def components(self, end, make):
        """Returns some components. The next message can answer and reject what they invoke and answer."""
        made = [make(end) for _ in range(self.rng.choice([0, 1, 1, 1, 2, 2, 3]))]
        for kind, id, *parts in made:
            if kind == "invoke":
                self.invoked[end].append((id, parts[1], parts[0]))
            elif kind in ("result", "error"):
                self.answered[end].append((id, RESULT if kind == "result" else ERROR))
        return made

    def last(self, end, peer):
        """Returns a message that ends the transaction, or an Abort of the provider."""
        rng, choice = self.rng, self.rng.random()
        if choice < 0.5:
            return Message("End", dtid=peer, components=self.components(end, self.component))
        if choice < 0.8:
            return Message("Abort", dtid=peer, cause=rng.choice([1, 1, 4]))
        return Message("Abort", dtid=peer, dialogue=rng.choice([None, ("ABRT", 0), ("ABRT", 1), REFUSED]))

    def messages(self):
        rng, first, second = self.rng, self.first, self.second
        asks = rng.random() < 0.25
        dialogue = ("AARQ",) if asks else None
        begun = self.components(first, self.begin_component)
        yield first, Message("Begin", self.ids[first], dialogue=dialogue, components=begun)
        for number in range(rng.choice([1, 2, 3, 4, 5])):
            end = rng.choice([first, second]) if number else second
            own, peer = self.ids[end], self.ids[second if end == first else first]
            fits = rng.random() < 0.92
            dialogue = ACCEPTED if asks and (number == 0) == fits else None
            yield end, Message("Continue", own, peer, None, dialogue, self.components(end, self.component))
        if rng.random() < 0.6:
            end = rng.choice([first, second])
            yield end, self.last(end, self.ids[second if end == first else first])


# ---- few transaction IDs


class FewIds:
    """Ends that have few transaction IDs, and mostly send from and to used ones."""

    def __init__(self, rng):
        self.rng = rng
        self.ids = {"A": [b"\1", b"\3", b"\4"][: rng.randint(1, 3)], "B": [b"\2", b"\7", b"\1"][: rng.randint(1, 3)]}
        self.used = {"A": [], "B": []}
        self.rate, self.dialogues = rng.choice([0, 0.3, 0.8]), rng.choice([0, 0, 0.3, 0.8])

    def id_of(self, end, share):
        used = self.used[end] if self.rng.random() > share else []
        return self.rng.choice(used or self.ids[end])

    def components(self, make):
        rng = self.rng
        return [make(rng) for _ in range(rng.choice([1, 1, 1, 2, 2, 3]))] if rng.random() < self.rate else []

    def dialogue(self, *among):
        return self.rng.choice(among) if self.rng.random() < self.dialogues else None

    def message(self, end):
        rng, choice = self.rng, self.rng.random()
        peer = self.id_of("B" if end == "A" else "A", 0.12)
        if choice < 0.22:
            own = rng.choice(self.ids[end])
            self.used[end].append(own)
            invokes = self.components(lambda rng: ("invoke", rng.choice([1, 1, 2]), None, rng.choice(CODES)))
            return Message("Begin", own, dialogue=self.dialogue(("AARQ",), ("AARQ",), ACCEPTED), components=invokes)
        if choice < 0.62:
            own = self.id_of(end, 0.3)
            self.used[end].append(own)
            dialogue = self.dialogue(ACCEPTED, ACCEPTED, REFUSED, ("AARQ",), runs.any_dialogue(rng))
            return Message("Continue", own, peer, None, dialogue, self.components(any_component))
        if choice < 0.78:
            dialogue = self.dialogue(ACCEPTED, ACCEPTED, REFUSED, ("ABRT", 0), runs.any_dialogue(rng))
            return Message("End", None, peer, None, dialogue, self.components(any_component))
        if choice < 0.87:
            dialogue = rng.choice([None, ("ABRT", 0), ("ABRT", 1), REFUSED, ACCEPTED, runs.any_dialogue(rng)])
            return Message("Abort", dtid=peer, dialogue=dialogue)
        if choice < 0.98:
            return Message("Abort", dtid=peer, cause=rng.choice([1, 1, 1, 4, 4, 4, 2]))
        return Message("Unidirectional", components=[any_component(rng)])

    def messages(self):
        for _ in range(self.rng.choice([2, 3, 4, 5, 6, 8, 10])):
            end = self.rng.choice("AB")
            yield end, self.message(end)


def entries(rng, table):
    """Returns the entries of a record, with quiet marks among them."""
    writer = runs.Writer(rng, plain=True)
    dialogue = Transaction(rng, table) if rng.random() < 0.7 else FewIds(rng)
    made = []
    for end, message in dialogue.messages():
        if rng.random() < 0.03:
            made.append(b"\x51")
        made.append(end.encode() + writer.message(message))
    return made + [b"\x51"] * (rng.random() < 0.2)
