"""How a call says no, and how an accepted call fills a lent slice."""


class Refused(Exception):
    """A call's no: "Each refusal returns its number and a place".

    It is raised before anything is written, so "all slices lent keep every element they had".
    """

    def __init__(self, number, place):
        super().__init__(number, place)
        self.number = number
        self.place = place


def refuse_if(condition, number, place):
    if condition:
        raise Refused(number, place)


def fill(lent, answer):
    """Writes an answer: "Accepted calls fill exactly their answer from the slice's start; elements
    after it keep their values"."""
    assert len(answer) <= len(lent)
    lent[:len(answer)] = answer
