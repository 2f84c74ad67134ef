"""What a test expects, each held at once and counted."""


class Wrong(Exception):
    """Something is not as it was expected."""


class Expecting:
    def __init__(self):
        self.held, self.left_out = 0, []

    def same(self, said, wanted, what):
        if said != wanted:
            raise Wrong(f"{what}: {shortened(said)} in place of {shortened(wanted)}")
        self.held += 1

    def has(self, text, wanted, what):
        """The text has each of these pieces."""
        for piece in [wanted] if isinstance(wanted, str) else wanted:
            if piece not in (text or ""):
                raise Wrong(f"{what}: nothing says {piece!r} in {shortened(text)}")
            self.held += 1

    def lacks(self, text, unwanted, what):
        if unwanted in (text or ""):
            raise Wrong(f"{what}: {unwanted!r} stands in {shortened(text)}")
        self.held += 1

    def leave_out(self, what):
        self.left_out.append(what)


def shortened(said, most=600):
    text = repr(said)
    return text if len(text) <= most else f"{text[:most]}… ({len(text)} characters)"
