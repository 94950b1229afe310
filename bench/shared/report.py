"""What a bench prints."""


class Report:
    """Prints numbers, a line each, and counts those that miss what is wanted of them."""

    def __init__(self):
        self.missed = 0

    def says(self, what, number, most):
        verdict = "" if number <= most else "  MISSED"
        self.missed += number > most
        print(f"  {what:<44}{written(number)}   wanted: at most {most}{verdict}", flush=True)

    def lacks(self, what, why):
        """Says why there is no number where one is wanted."""
        self.missed += 1
        print(f"  {what:<44}{why}  MISSED", flush=True)

    def knows(self, what, number, unit):
        print(f"  {what:<44}{written(number)}   {unit}", flush=True)


def written(number):
    """With two decimals, and more of them if it is small."""
    return f"{number:10.2f}" if number >= 0.1 or number == 0 else f"{number:10.5f}"
