"""What is wrong in a list, and at which line of it."""


class Line(str):
    """A line of a list, without remark and blanks around it; `place` is where it stands: the file and the number."""

    def __new__(cls, text, place):
        line = super().__new__(cls, text)
        line.place = place
        return line


class Wrong(Exception):
    """Something in a list is wrong; `line` is the Line that has it, if that is known where it is found."""

    def __init__(self, text, line=None):
        super().__init__(text)
        self.place = getattr(line, 'place', None)


def at(line, make):
    """what `make` gives; if it finds something wrong and does not know where, it is in this line"""
    try:
        return make()
    except Wrong as e:
        e.place = e.place or line.place
        raise
