"""What lies on what by the way a figure is drawn: a join goes through its points, a meet is on its lines, a blend
is in line with what it was made of, and two lines with two points in common are one.

This sorts what the program has proved, so that what is plain may be folded; it decides nothing."""


class Drawing:
    """`rows` are sets of elements of one kind that are in line, each with the elements of the other kind that carry
    it."""

    def __init__(self, sketch, same):
        """`same` are the pairs of numbers, in rising order, that are proved to be the same: they make no line."""
        self.sketch, self.same = sketch, same
        on = sketch.points_on()
        self.rows = [(members, {number}) for number, members in on.items()]
        self.rows += [({e.number, *e.below}, set()) for e in sketch.elements.values() if e.word in ('along', 'pencil')]
        while self.joined():
            pass

    def joined(self):
        """Makes one row of each two that have two members in common. Whether there were such."""
        before = sum(len(members) + len(carriers) for members, carriers in self.rows), len(self.rows)
        rows = []
        for members, carriers in self.rows:
            for row in rows:
                if self.are_two(members & row[0]):
                    row[0].update(members)
                    row[1].update(carriers)
                    break
            else:
                rows.append((set(members), set(carriers)))
        self.rows = rows
        self.carry()
        return before != (sum(len(members) + len(carriers) for members, carriers in rows), len(rows))

    def carry(self):
        """Each carrier of a row goes through its members, so it is a member of the rows that these carry."""
        for members, carriers in list(self.rows):
            for other_members, other_carriers in self.rows:
                if other_carriers & members:
                    other_members.update(carriers)

    def are_two(self, members):
        """Whether two of the members are different, as far as is known."""
        numbers = sorted(members)
        return any((a, b) not in self.same for i, a in enumerate(numbers) for b in numbers[i + 1:])

    def shows(self, claim):
        """Whether three elements are in one row, or an element is in a row that the other one carries."""
        numbers = set(claim.numbers)
        if claim.what == 'triple':
            return any(numbers <= members for members, _ in self.rows)
        return claim.what == 'on' and any(numbers & members and numbers & carriers for members, carriers in self.rows)
