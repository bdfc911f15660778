"""The reference for division.toml: each call makes a case, with what has to come of it."""


def division(random):
    by, times = random.randrange(1, 200), random.randrange(50)
    # nothing is left in half of the cases
    left = random.choice([0, random.randrange(by)])
    return {"registers": {"R0": by * times + left, "R1": by}, "expect": {"R0": left, "R2": times}}
