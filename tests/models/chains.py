"""The class of a version by a plain enumeration of chains, and small packages of which each is a case: every list of up
to three steps over three versions, with each version condemned or not."""

import itertools

VERSIONS = ("1.0.0", "1.1.0", "1.2.0")
MOST_STEPS = 3
# lists of up to three of fifteen steps, with each subset of three versions condemned
CASES = (1 + 15 + 15**2 + 15**3) * 2**3

# a step: where it starts, where it leads, whether it is exempt
STEPS = (
    [(None, version, False) for version in VERSIONS]
    + [(None, version, True) for version in VERSIONS]
    + [(origin, target, False) for origin in VERSIONS for target in VERSIONS]
)


def leads(chain, version):
    at = None
    for origin, target, _ in chain:
        if origin != at:
            return False
        at = target
    targets = [target for _, target, _ in chain]
    return at == version and len(set(targets)) == len(targets)


def class_of(steps, condemned, version):
    chains = [
        chain
        for length in range(1, len(steps) + 1)
        for chain in itertools.permutations(steps, length)
        if leads(chain, version)
    ]
    clean = [chain for chain in chains if not any(target in condemned for _, target, _ in chain)]
    if version in condemned and chains:
        return "conflicting"
    if any(not any(exempt for _, _, exempt in chain) for chain in clean):
        return "full"
    if any(not chain[-1][2] for chain in clean):
        return "partial"
    return "exempted" if clean else "unvetted"


def cases():
    subsets = [s for n in range(len(VERSIONS) + 1) for s in itertools.combinations(VERSIONS, n)]
    for length in range(MOST_STEPS + 1):
        for steps in itertools.product(STEPS, repeat=length):
            for condemned in subsets:
                yield steps, condemned
