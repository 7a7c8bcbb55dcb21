"""Patterns of paths: takes the segments of one, says which paths it has.

In a segment `*` stands for any letters and `?` for one; a segment `**` for any number of segments, also none. No choice is made again but the one
after the last star, so that a path takes at most as many steps as the product of both lengths, whatever the pattern is.
"""
ANY = "**"


class PathPattern:
    """A pattern, by its segments."""

    def __init__(self, segments):
        self.segments = list(segments)
        self.is_wild = ["*" in it or "?" in it for it in self.segments]

    def has(self, path):
        """Whether this is one of its paths."""
        return matches(self.segments, path.split("/"), ANY, self.has_segment)

    def has_segment(self, at, text):
        """Whether a segment of a path is one that the pattern has there."""
        segment = self.segments[at]
        return matches(segment, text, "*", lambda place, letter: segment[place] in ("?", letter)) if self.is_wild[at] else segment == text


def matches(pattern, parts, star, is_one):
    """Whether parts are those of a pattern, in which `star` stands for any number; `is_one` says whether a part is the one of a place in it."""
    at = place = 0
    after, since = -1, 0  # the place after the last star, and the part from which on the rest is looked for
    while at < len(parts):
        if place < len(pattern) and pattern[place] == star:
            place += 1
            after, since = place, at
        elif place < len(pattern) and is_one(place, parts[at]):
            at, place = at + 1, place + 1
        elif after >= 0:
            since += 1
            at, place = since, after
        else:
            return False
    return all(it == star for it in pattern[place:])
