"""The calls of each file in tests/rows/."""
import os

from helpers.cases import cases, same
from helpers.paths import ROWS
from helpers.rows import cut, rows_of, transcript


def calls():
    """Each call of each row, by the row's name and the words."""
    for name in sorted(os.listdir(ROWS)):
        for row in rows_of(f"{ROWS}/{name}"):
            for words, wanted in row.calls:
                yield f"{name.removesuffix('.txt')} {row.shows} $ {words}", row, words, wanted


@cases(calls())
def test_row(row, y86):
    _, row, words, wanted = row
    came = y86(*["" if word == "''" else word for word in words.split()], files=row.contents())
    same(cut(transcript(came), "\n".join(wanted)), "\n".join(wanted))
