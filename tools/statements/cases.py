"""What a contract reaches, case by case. Of a definition by cases those clauses count alone whose constructors can be met: where `reads` is the only one
of its type that is named, `spec` reaches what it says of `reads`. A constructor is met where it is named outside a pattern. All constructors of a data
type are met where the type is open: named elsewhere than in the type of a definition, so that any value of it may be meant. The variants of the code's
types always are."""


class Cases:
    def __init__(self, world):
        self.world = world
        self.reached = {}
        self.met = set()
        self.open = set()
        self.waiting = []  # clauses whose constructors aren't all met

    def go(self, found):
        """Takes what a contract names; then the clauses that wait, as long as one can be taken."""
        self.take(found, True)
        while ready := [names for constructors, names in self.waiting if self.met.issuperset(constructors)]:
            self.waiting = [clause for clause in self.waiting if not self.met.issuperset(clause[0])]
            for names in ready:
                self.take(names, True)
        return self.reached

    def take(self, found, opens):
        """Reaches what is named; `opens` says that a data type that is named may have any value."""
        left = [(one, opens) for one in found]
        while left:
            one, opens = left.pop()
            if one.kind == "constructor":
                self.met.add(one)
            elif one.kind == "data" and opens and one not in self.open:
                self.open.add(one)
                self.met.update(one.parts)
                left += [(named, True) for named in self.world.pieces(one)[0][1]]
            one = one.owner or one
            if one not in self.reached:
                self.reached[one] = None
                left += self.begun(one)

    def begun(self, one):
        """What the statement of a declaration names, and whether that opens a data type; its clauses wait."""
        (_, names), *clauses = self.world.pieces(one)
        for constructors, held in clauses:
            self.waiting.append(([part for part in constructors if part.kind == "constructor"], held))
        # A data type that isn't open opens none by the types of its constructors: what a value of it holds is named where the value is made.
        return [(named, one.kind in ("record", "theorem")) for named in names]
