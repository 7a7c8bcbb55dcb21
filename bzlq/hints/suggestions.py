"""The word that was meant: takes a word and those that there are, gives the nearest one, or a clause that asks for it."""
import difflib


def nearest(word, words):
    """The nearest word; nothing where none is near."""
    found = difflib.get_close_matches(word, sorted(set(words)), 1, 0.6)
    return found[0] if found and found[0] != word else ""


def did_you_mean(word, words):
    """` (did you mean 'x'?)`, or nothing where no word is near."""
    found = nearest(word, words)
    return f" (did you mean '{found}'?)" if found else ""
