"""Numbers of choices that tell how a search of a board file ends. Everything follows from the random source given."""
from report import Refused, read
from search import search

MOST = 64  # boards that need more are not searched to their end
LARGEST = 2**64 - 1


def numbers(random, data):
    """0, one fewer than the board needs, just enough, one more, now and then the largest. Where it needs more than MOST: two
    numbers that are too few. Where the file is refused: any."""
    try:
        ending, _, purse = search(*read(data), MOST)
    except Refused:
        return [random.choice([0, 1, LARGEST])]
    if ending == "SPENT":
        return [0, random.randint(1, MOST)]
    needs = purse.followed
    telling = {0, max(0, needs - 1), needs, needs + 1}
    if random.random() < 0.2:
        telling.add(LARGEST)
    return sorted(telling)
