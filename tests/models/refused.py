"""Why a command is refused."""


class Refused(Exception):
    """A command is refused, for what stands behind `refused` in what it is told."""
