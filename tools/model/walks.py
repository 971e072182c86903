"""Steps of iterators over blocks, by words: a name, and behind colons what the step takes."""

from texts import word_of_found
from words import bad_word, bytes_of, number_of, truth


def by_key(call):
    """Returns the step of a seek by a key alone."""
    return lambda window, interval, key: truth(call(window, bytes_of(key)))


def move(window, interval, number):
    """Moves the front to a head."""
    if not window.move_to(number_of(number) * interval):
        raise bad_word()
    return "true"


def again(window, interval):
    """Starts again."""
    window.restart()
    return "again"


def seek_handle(window, interval, key, seqno):
    """Seeks the first handle that can lead to a key below a sequence number."""
    return truth(window.seek_handle(bytes_of(key), number_of(seqno)))


STEPS = {
    "next": lambda window, interval: word_of_found(window.next()),
    "back": lambda window, interval: word_of_found(window.back()),
    "left": lambda window, interval: str(window.left()),
}

# The steps of an iterator over a data block.
DATA = {
    **STEPS,
    "seek": by_key(lambda window, key: window.seek(key)),
    "upper": by_key(lambda window, key: window.upper(key)),
    "above": by_key(lambda window, key: window.above(key)),
    "below": by_key(lambda window, key: window.seek_below(key)),
    "move": move,
    "again": again,
}

# The steps of an iterator over an index block.
INDEX = {
    **STEPS,
    "seek": seek_handle,
    "upper": by_key(lambda window, key: window.upper_handle(key)),
}


def repeated(words):
    """Returns words, of which one with `*` and a number behind it stands for as many."""
    for word in words:
        name, star, times = word.partition("*")
        if star and name.isidentifier():
            yield from [name] * number_of(times)
        else:
            yield word


def answers(steps, window, interval, words):
    """Returns the answers to steps."""
    found = []
    for word in repeated(words):
        name, *arguments = word.split(":")
        if name not in steps or len(arguments) != steps[name].__code__.co_argcount - 2:
            raise bad_word()
        found.append(steps[name](window, interval, *arguments))
    return " ".join(found)
