"""What is said of a refusal: the program's sentence, by the text that was refused, and the argument that it is said of."""

from __future__ import annotations

from typing import TYPE_CHECKING, Callable, Optional

from . import calls
from .errors import Refused

if TYPE_CHECKING:
    from .table import Table
    from .values import Filled

#: The refusals that are of a text or of rows, and not of a file: then the table's file is judged already.
_OF_A_TEXT = ("Syntax", "NoSuchTable", "NoSuchColumn", "NotGrouped", "NumberTooLarge", "TooDeep", "BadCsv", "LineTooLong", "OutOfType", "Conflict")

_NO_SUCH_COLUMN = 28


class Explaining:
    """A block whose refusals are explained."""

    __slots__ = ("_explain",)

    def __init__(self, explain: Callable[[Refused], Refused]) -> None:
        self._explain = explain

    def __enter__(self) -> None:
        pass

    def __exit__(self, kind: object, fault: Optional[BaseException], trace: object) -> None:
        if isinstance(fault, Refused):
            said = self._explain(fault)
            if said is not fault:
                raise said from None


def explained(table: Table, given: calls.Given, subject: str = "", told: Callable[[Refused], Refused] = lambda refused: refused) -> Explaining:
    """A call on a table that is given a text, or rows: its refusals have the program's sentences. They are said of an argument, and told as of the
    text that was given."""

    def explain(refused: Refused) -> Refused:
        if refused.name == "BadName":
            return refused.said_of("batch")
        if refused.name not in _OF_A_TEXT:
            return refused
        return told(calls.explained(refused, given, table._words()).said_of(subject))

    return Explaining(explain)


def of_input(data: calls.Input, subject: str = "") -> Explaining:
    """A call that is given a file or a message: if it is another thing, the sentence says what. If it is said of an argument, it names it."""
    return Explaining(lambda refused: calls.explained(refused, calls.Given(calls.INPUT, data)).said_of(subject or refused.subject))


def of_tables(found: Callable[[], bytes], wanted: Callable[[], bytes]) -> Explaining:
    """A call that joins what two inputs have: if they are of two tables, the sentence names both, by the words of each."""

    def explain(refused: Refused) -> Refused:
        if refused.name != "SchemaDiffers":
            return refused
        return calls.explained(refused, calls.Given(calls.WORDS, found()), wanted())

    return Explaining(explain)


def asked(text: Filled, table: Table) -> Explaining:
    """A call on a table that is given a query."""
    return explained(table, calls.Given(calls.QUERY, text.text), told=text.told)


def judged(argument: str, text: Filled, table: Table) -> Explaining:
    """A call on a table that is given a condition as an argument."""
    return explained(table, calls.Given(calls.CONDITION, text.text), argument, text.told)


def no_column(argument: str, words: str, at: int, table: Table) -> Refused:
    """The refusal of a word that is no column of a table. The word is at a byte of an argument's words, with a comma between each two. Its sentence
    names the word, and not its byte: what was given is a list."""
    given = calls.Given(calls.NAMES, words.encode(errors="replace"), ord(","))
    refusal = calls.explained(calls.refused(_NO_SUCH_COLUMN, at), given, table._words())
    return refusal.said_of(argument, refusal.sentence.partition(": ")[2])
