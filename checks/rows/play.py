"""Steps of a player, and their answers as rows write them."""
from model import answer
from texts import spelt


class Player:
    """Plays steps over a store. Bodies have the numbers of their replies."""

    def __init__(self, store, settings):
        self.store, self.settings, self.bodies = store, settings, []

    def step(self, step):
        """The answer to a step: (word, what it has)."""
        kind = step[0]
        if kind == "request":
            self.store.now = step[2]
            reply = answer(self.store, self.settings, step[1])
            self.bodies.append(reply.body)
            return "reply", reply, len(self.bodies) - 1
        if kind == "poll":
            piece = self.bodies[step[1]].poll(self.store.disk) if step[1] < len(self.bodies) else None
            return ("end",) if piece is None else ("broken",) if piece == "broken" else ("piece", piece)
        if kind == "abandon" and step[1] < len(self.bodies):
            self.bodies[step[1]].parts = []
        elif kind == "purge":
            self.store.memory.purge(step[1])
        elif kind == "turn":
            self.store.disk.turn()
        return ("done",)


def told(answered):
    """An answer as a row writes it."""
    if answered[0] == "reply":
        _, reply, number = answered
        fields = "; ".join(f"{name}={spelt(value)}" for name, value in reply.sorted())
        return f"{reply.status} {number}" + (" " + fields if fields else "")
    if answered[0] == "piece":
        return "piece " + spelt(answered[1])
    return answered[0]
