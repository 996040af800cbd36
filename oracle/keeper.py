"""The keeper, as a model: of all that was put, the first k in order, equal ones in the order in which they came."""


def first_of(places, items, key):
    """What the places hold after all items were put: how many are filled, and the places from the front."""
    held = sorted(items, key=key)[:places]
    return len(held), held
