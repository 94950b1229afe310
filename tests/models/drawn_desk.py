"""Commands to the review desk that are drawn: mostly of what is demanded, and by whom a review is held."""

MEMBERS = ("ann", "bob", "cat")


class DrawnDesk:
    """The commands to the desk of what is drawn with `dice` for `machine`."""

    def at_desk(self):
        held = self.machine.held
        if not held.members or self.dice.random() < 0.05:
            return self.member()
        if not held.in_review() and self.dice.random() < 0.8:
            return self.opened()
        acts = (self.opened, self.assigned, self.assigned, self.assigned, self.finished, self.finished, self.finished)
        return self.dice.choice((*acts, self.withdrawn, self.audit))()

    def member(self):
        return f"add-member {self.dice.choice(MEMBERS)}"

    def opened(self):
        demanded = sorted(self.machine.held.standing())
        if not demanded and self.dice.random() < 0.8:
            return self.project()
        if not demanded or self.dice.random() < 0.1:
            return " ".join(["open-review", "a", "1.0.0", *self.some(("x", "safe-to-run", "nope"), 0, 2)])
        # mostly for a criterion that can be removed, which is demanded by a policy
        removable = [pair for pair in demanded if pair[2] in ("x", "y", "z")]
        if not removable and self.dice.random() < 0.3:
            return self.demanding()
        package, version, _ = self.dice.choice(removable or demanded)
        names = [name for of, at, name in demanded if (of, at) == (package, version)]
        return " ".join(["open-review", package, version, *self.some(names, 1, 2)])

    def demanding(self):
        """A policy by which what a node depends on needs a criterion that can be removed."""
        projects = self.machine.held.projects.values()
        nodes = [node for project in projects for node, party in project.parties.items() if party != "third"]
        package, _ = self.dice.choice(sorted(nodes) or [("app", "1.0.0")])
        return f"set-policy {package} criteria={self.dice.choice(('x', 'y'))}"

    def review(self):
        """The number of a review, mostly of one that isn't closed, and that review."""
        reviews = self.machine.held.reviews
        numbers = [number for number, review in reviews.items() if not review.is_closed()]
        if not numbers or self.dice.random() < 0.2:
            numbers = range(1, self.machine.held.next_review + 1)
        number = self.dice.choice(numbers)
        return number, reviews.get(number)

    def by(self, review):
        """A name, mostly of the member to whom a review is assigned, and else mostly of a member."""
        if review and review.state == "assigned" and self.dice.random() < 0.8:
            return review.by
        return self.dice.choice((*MEMBERS, *sorted(self.machine.held.members) * 4))

    def assigned(self):
        number, review = self.review()
        return f"assign-review {number} {self.by(review if self.dice.random() < 0.3 else None)}"

    def withdrawn(self):
        number, review = self.review()
        return f"withdraw-review {number} {self.by(review)}"

    def finished(self):
        number, review = self.review()
        version = review.version if review and self.dice.random() < 0.8 else "1.0.0"
        origin = ["1.1.0"] if self.dice.random() < 0.3 else []
        return " ".join(["finish-review", str(number), self.by(review), *origin, version])

    def unreviewed(self, held):
        """A criterion that an open review names goes, with all else that names it."""
        names = sorted(held.in_review() & set(held.criteria))
        if not names:
            return
        name = self.dice.choice(names)
        del held.criteria[name]
        for other, it in held.criteria.items():
            held.criteria[other] = it._replace(implies=it.implies - {name})
        held.entries = {number: entry for number, entry in held.entries.items() if name not in entry.criteria}
        held.policies = {key: policy for key, policy in held.policies.items() if name not in str(policy)}
        for peer, settings in held.settings.items():
            kept = tuple((of, tuple(to for to in names if to != name)) for of, names in settings.map)
            held.settings[peer] = settings._replace(map=kept)

    def audit(self):
        """Mostly the entry with which a review would be finished."""
        reviews = sorted(self.machine.held.reviews.items())
        if not reviews:
            return "add-audit ann a 1.0.0 safe-to-run"
        _, review = self.dice.choice(reviews)
        return " ".join(["add-audit", self.by(review), review.package, review.version, *review.criteria])
