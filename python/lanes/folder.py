"""A replica in a folder of parts, which is what a service uses: each change adds a part. docs/FOLDERS.md says what a folder is."""

from __future__ import annotations

import errno
import html
import os
from typing import Any, Callable, Iterable, Mapping, NamedTuple, Optional, Tuple, TypeVar, Union

from . import arguments, calls, explaining, folder_driver, part_folder, resting
from .batch_name import BatchName, GivenName, name_of
from .column_types import ColumnTypes
from .csv_fields import Dates
from .csv_text import HERE, Csv
from .errors import Busy, Damaged, Refused
from .owned import OpenFile
from .pieces import Progress
from .readable import Readable
from .table import Table
from .taken_parts import Parts, Skim
from .values import NONE, Values, filled
from .waiting import Wait

#: How many batches a folder may have.
_MOST = 1_048_576

#: What a look at a folder's parts finds.
_Found = TypeVar("_Found")

#: What takes parts, one after another.
_Taken = TypeVar("_Taken", Parts, Skim)

#: The numbers of refusals that are made here.
_FULL, _SCHEMA_DIFFERS, _DAMAGED = 3, 8, 45


class _Heads(NamedTuple):
    """What the heads of a folder's parts say: the empty table of their columns, and how many batches they have together. A batch that is in
    two parts counts twice."""

    empty: Table
    batches: int


class _Basis(NamedTuple):
    """What a change is made of: a table that answers it as all parts together do, the names of these, and those on which the change rests."""

    held: Table
    names: list[str]
    relied: list[str]


class Folder(Readable):
    """A folder of parts. Each call reads what is there then; several processes, and the program `lanes`, may use it at once.

    For many questions of one state ask a table: `table = folder.read()`. `len` is the number of live rows. Two are equal if they are of the
    same folder, by whichever path.

    Raises:
        NotADirectoryError, FileNotFoundError: there is no such folder.
    """

    def __init__(self, path: Union[str, os.PathLike[str]]) -> None:
        #: The folder's path, from the root: it is the same folder's if the process changes its own afterwards.
        self.path = arguments.path_of("path", path)
        if not os.path.isabs(self.path):
            self.path = os.path.join(os.getcwd(), self.path)
        with OpenFile() as opened:
            found = os.fstat(_opened(opened, self.path))
        self._identity = found.st_dev, found.st_ino

    @classmethod
    def create(cls, path: Union[str, os.PathLike[str]], name: str, columns: ColumnTypes) -> Folder:
        """Makes a folder of an empty table, all at once. Name and columns are those of `Table.create`.

        Raises:
            FileExistsError: something has this name.
            Refused: `BadSchema`.
        """
        return cls.of(path, Table.create(name, columns))

    @classmethod
    def of(cls, path: Union[str, os.PathLike[str]], table: Table) -> Folder:
        """Makes a folder of a table, all at once.

        Raises:
            FileExistsError: something has this name.
        """
        part_folder.make(arguments.path_of("path", path), arguments.is_of("table", Table, table).to_bytes())
        return cls(path)

    def read(self) -> Table:
        """What all parts hold, as a table. `Table.save` writes it to a file, which is a backup.

        Raises:
            FileNotFoundError: there is no part.
            Damaged: a part has other bytes than its name says.
            Refused: a part's first fault, or `SchemaDiffers`, `Conflict` or `Full` of parts that don't go together. Its subject is the
                path of the part.
            Busy: others have had the folder for ten seconds, or parts come and go.
        """
        return self._joined()[0]

    @arguments.known_elsewhere(**HERE)
    def import_csv(
        self,
        csv: Csv,
        *,
        heading: bool = True,
        batch: Optional[GivenName] = None,
        progress: Optional[Progress] = None,
        separator: str = ",",
        null: Union[str, Iterable[str]] = "",
        columns: Optional[Iterable[Optional[str]]] = None,
        whole_lines: bool = False,
        encoding: str = "utf-8",
        dates: Optional[Dates] = None,
        booleans: Iterable[str] = (),
    ) -> int:
        """Adds rows, as `Table.import_csv` does; how many batches are new. Without `batch` only the smallest part is read, and with it the values
        of those parts alone that have a batch of such a name. A load that is sent again under its name adds no rows, and is on the disk
        afterwards. If the folder has some of its batches, these are on the disk before the others are put.

        Raises:
            Refused: a fault of the text or of the name; `Conflict`; `Full`.
            OSError: a part that has one of its batches can't be synced, and nothing is put.
        """

        def added(empty: Table) -> Table:
            return empty.import_csv(
                csv,
                heading=heading,
                batch=batch,
                progress=progress,
                separator=separator,
                null=null,
                columns=columns,
                whole_lines=whole_lines,
                encoding=encoding,
                dates=dates,
                booleans=booleans,
            )

        return self._add(added, batch)

    def import_columns(self, columns: Mapping[str, Any], *, batch: Optional[GivenName] = None, progress: Optional[Progress] = None) -> int:
        """Adds rows of arrays, as `Table.import_columns` does; how many batches are new."""
        return self._add(lambda empty: empty.import_columns(columns, batch=batch, progress=progress), batch)

    def import_rows(self, rows: Iterable[Any], *, batch: Optional[GivenName] = None, progress: Optional[Progress] = None) -> int:
        """Adds rows that are dicts or tuples, as `Table.import_rows` does; how many batches are new."""
        given = list(arguments.several("rows", "several rows, as dicts or tuples,", rows))
        return self._add(lambda empty: empty.import_rows(given, batch=batch, progress=progress), batch)

    def import_frame(self, frame: Any, *, batch: Optional[GivenName] = None, progress: Optional[Progress] = None) -> int:
        """Adds the rows of a frame of pandas, as `Table.import_frame` does; how many batches are new."""
        return self._add(lambda empty: empty.import_frame(frame, batch=batch, progress=progress), batch)

    def import_arrow(self, data: Any, *, batch: Optional[GivenName] = None, progress: Optional[Progress] = None) -> int:
        """Adds the rows of Arrow's stream, as `Table.import_arrow` does; how many batches are new."""
        return self._add(lambda empty: empty.import_arrow(data, batch=batch, progress=progress), batch)

    def delete(self, condition: str, values: Values = NONE) -> int:
        """Deletes the rows at which a condition is true; how many there were. Rows that come meanwhile aren't deleted. Deletions of such rows
        that the folder has already are on the disk before the new ones are put.

        Args:
            condition: the condition, as of `Table.delete`.
            values: a value for each `?` of the condition.

        Raises:
            Refused: a fault of the condition.
            OSError: such a deletion can't be synced, and nothing is put.
        """
        text = filled("condition", condition, values)
        held, names, deleting = self._basis(resting.has_deletions)
        rows, part = held._delete_part(text)
        if rows:
            part_folder.put(self.path, part, resting.with_deletions(self.path, deleting, held, text))
        else:
            part_folder.keep(self.path, names)
        return rows

    def delete_rows(self, batch: GivenName, first: int, last: Optional[int] = None, *, held: bool = False) -> bool:
        """Deletes rows by their names, as `Table.delete_rows` does, whether the folder has them or not. Of the parts the heads are read, and
        the smallest part whole.

        Args:
            held: whether to delete only if the folder has the batch. Then the names of the batches of all parts are read, and what has this one is
                judged. So one deletion may be sent to all shards.

        Returns:
            False if `held` is true and the folder does not have the batch, so that nothing is deleted; else True.

        Raises:
            Refused: `BadName`, `BadRange`; a part's first fault, or `SchemaDiffers` of a part.
            Damaged: a part has other bytes than its name says.
        """
        part = self._heads().empty.delete_rows(batch, first, last)
        if arguments.flag_of("held", held) and not self._holds(name_of(batch)):
            return False
        part_folder.put(self.path, part.to_bytes())
        return True

    def apply(self, *offers: Union[bytes, bytearray, memoryview]) -> int:
        """Adds what offers bring, all or nothing; how many batches are new. What was there already is on the disk afterwards, too: if something
        is added, it is on the disk before.

        Raises:
            Refused: a fault of an offer, `SchemaDiffers`, `Conflict` or `Full`.
            OSError: a part that has one of the batches can't be synced, and nothing is put.
        """
        given = [arguments.bytes_of(f"offers[{at}]", offer, "folder.offer(summary) and table.to_bytes() give them") for at, offer in enumerate(offers)]
        empty = self._heads().empty
        own, refusal = _all_of(given, empty._asked())
        basis = self._basis(own.meets)
        if refusal is not None:
            raise refusal
        whole = given[0] if len(given) == 1 else own.file(sum(map(len, given)))
        del own  # what all parts hold is in memory, too, and it is not needed any more once it has answered
        batches, part = basis.held._bring(whole)
        names, relied = basis.names, basis.relied
        del basis, whole
        if part:
            self._put_beside(part, names, relied)
        elif bytes(_all_of(given, empty._asked())[0].file(0)) != empty.to_bytes():
            part_folder.keep(self.path, names)
        return batches

    @arguments.known_elsewhere(all="everything=")
    def pack(self, *, everything: bool = False) -> Tuple[int, int]:
        """Joins small parts, or all of them, into one and removes them; how many parts there are then, and how many were removed. It also
        removes temporaries that a killed process left.

        Raises:
            Busy: others have had the folder for ten seconds, and nothing is put or removed; or parts have come and gone for so long.
            OSError: the joined part, or the folder, can't be written or synced, and nothing is removed; or a part can't be removed.
        """
        is_whole = arguments.flag_of("everything", everything)
        part_folder.sweep(self.path)
        removed, wait = 0, self._wait()
        while True:
            names = self._chosen(is_whole)
            if len(names) < 2:
                break
            count = self._pack(names)
            if count is None:
                wait.again()
                continue
            removed, wait = removed + count, self._wait()
            if is_whole:
                break
        return len(part_folder.listed(self.path)), removed

    def forget(self) -> int:
        """Drops the batches of which every row is deleted; how many there were. All parts are joined into one, and removed. Their deletions
        stay, so that these rows never come back, and no answer changes. If there is no such batch, nothing is put or removed, and what the
        folder holds is on the disk afterwards. docs/FOLDERS.md, "Forgetting", says when to forget.

        Raises:
            Busy: others have had the folder for ten seconds, and nothing is put or removed; or parts have come and gone for so long.
            OSError: the new part, or the folder, can't be written or synced, and nothing is removed; or a part can't be removed.
        """
        wait = self._wait()
        while True:
            parts, names = self._looked(self._taken)
            turn, batches = parts.forget(folder_driver.temporary())
            if not batches:
                part_folder.keep(self.path, names)
                return 0
            if part_folder.replace(self.path, turn, parts.length) is not None:
                return batches
            wait.again()

    def _table(self) -> Table:
        return self.read()

    def __enter__(self) -> Folder:
        return self

    def __exit__(self, *_: object) -> None:
        self.close()

    def close(self) -> None:
        """Does nothing: between two calls a folder has nothing open."""

    def parts(self) -> list[str]:
        """The names of the parts, in ascending order."""
        return part_folder.listed(self.path)

    @property
    def name(self) -> str:
        """The table's name, in upper case."""
        return self._heads().empty.name

    @property
    def columns(self) -> dict[str, str]:
        """The columns in order: of each its name and its type, in upper case."""
        return self._heads().empty.columns

    def __eq__(self, other: object) -> bool:
        if not isinstance(other, Folder):
            return NotImplemented
        return self._identity == other._identity

    def __hash__(self) -> int:
        return hash(self._identity)

    def __reduce__(self) -> tuple[object, ...]:
        return type(self), (self.path,)

    def _repr_html_(self) -> str:
        """The folder for a notebook: its path, how many parts it has, and its table."""
        table, names = self._joined()
        return f"<p><b>{html.escape(self.path)}</b>: {len(names):,} parts</p>{table._repr_html_()}"

    def __repr__(self) -> str:
        return f"<lanes.Folder {self.path}>"

    def _joined(self) -> Tuple[Table, list[str]]:
        """What all parts hold, and their names."""
        parts, names = self._looked(self._taken)
        return Table._of_parts(parts), names

    def _looked(self, look: Callable[[list[str]], _Found]) -> Tuple[_Found, list[str]]:
        """What a look at all parts finds, and their names. If a part is gone meanwhile, a pack was here, and they are looked at anew.

        Raises:
            FileNotFoundError: there is no part, or one is a link that leads nowhere.
            Busy: parts have come and gone for ten seconds.
        """
        wait = self._wait()
        while True:
            names = part_folder.listed(self.path)
            if not names:
                raise FileNotFoundError(errno.ENOENT, "this folder has no part: Folder.create makes a folder that has one", self.path)
            try:
                return look(names), names
            except FileNotFoundError as gone:
                if folder_driver.leads_nowhere(gone.filename):
                    raise
            wait.again()

    def _taken(self, names: list[str]) -> Parts:
        """The parts of these names, read and joined.

        Raises:
            FileNotFoundError: one is gone.
        """
        parts = Parts()
        self._read(names, parts.take)
        return parts

    def _read(self, names: list[str], take: Callable[[str, bytes], None]) -> None:
        """Reads the parts of these names, one after another, each of which is taken.

        Raises:
            FileNotFoundError: one is gone.
        """
        for name in names:
            self._take(name, part_folder.read_part(self.path, name), take)

    def _take(self, name: str, data: bytes, take: Callable[[str, bytes], None]) -> None:
        """Takes a part that was read. Nothing here keeps its bytes: the next part is read once they are gone.

        Raises:
            Refused, Damaged: of the part.
        """
        try:
            with explaining.of_input(data):
                take(name, data)
        except Refused as refusal:
            raise self._of_part(refusal, name) from None

    def _gathered(self, names: list[str], taken: _Taken, rests_on: Callable[[bytes], bool]) -> Tuple[_Taken, list[str]]:
        """What is made of the parts of these names, once each of them is taken; and the names of those on which a change rests.

        Raises:
            FileNotFoundError: one is gone.
        """
        relied: list[str] = []

        def take(name: str, data: bytes) -> None:
            taken.take(name, data)
            if rests_on(data):
                relied.append(name)

        self._read(names, take)
        return taken, relied

    def _basis(self, rests_on: Callable[[bytes], bool]) -> _Basis:
        """What all parts hold together, for a change that rests on some of them."""
        (parts, relied), names = self._looked(lambda names: self._gathered(names, Parts(), rests_on))
        return _Basis(Table._of_parts(parts), names, relied)

    def _basis_of_load(self, load: Table, first: BatchName) -> _Basis:
        """What answers a load under given names as all parts do: their deletions, and all that those hold which have one of the names. If there
        are too many batches it is what all parts hold."""
        opened = load._asked()
        count = opened.batches()
        (skim, relied), names = self._looked(lambda names: self._gathered(names, Skim(first, count), opened.meets))
        held, batches = skim.opened()
        return _Basis(Table._of_opened(held, 0), names, relied) if batches + count <= _MOST else self._basis(opened.meets)

    def _of_part(self, refusal: Refused, name: str) -> Exception:
        """A refusal that is said of the part."""
        path = os.path.join(self.path, name)
        return Damaged(path) if refusal.number == _DAMAGED else refusal.said_of(path)

    def _heads(self) -> _Heads:
        """What the heads of the parts say. The smallest part is read whole.

        Raises:
            FileNotFoundError: there is no part.
            Refused, Damaged: of a part whose head is at fault or of another table, and of the smallest part.
        """
        return self._looked(self._heads_of)[0]

    def _heads_of(self, names: list[str]) -> _Heads:
        """What the heads of these parts say.

        Raises:
            FileNotFoundError: one is gone.
        """
        empty, batches, sizes = b"", 0, []
        for name in names:
            front, size = part_folder.front_of(self.path, name)
            try:
                found, count = calls.head(front)
            except Refused:
                found, count = b"", 0
            empty = empty or found
            if not found or found != empty:
                self._taken([names[0], name])
                raise self._of_part(calls.refused(_SCHEMA_DIFFERS), name)
            batches += count
            sizes.append((size, name))
        self._taken([min(sizes)[1]])
        return _Heads(Table(empty), batches)

    def _add(self, load_of: Callable[[Table], Table], batch: Optional[GivenName]) -> int:
        """Puts the batches of a load into the folder, which is made of the empty table; how many are new."""
        heads = self._heads()
        load = load_of(heads.empty)
        if batch is not None:
            return self._add_named(load, name_of(batch))
        batches = load.check()[0]
        if heads.batches + batches > _MOST:
            raise calls.refused(_FULL)
        if batches:
            part_folder.put(self.path, load.to_bytes())
        return batches

    def _add_named(self, load: Table, first: BatchName) -> int:
        """The same of a load under a given name: the batches that the folder does not have, if no other such load came meanwhile."""
        basis = self._basis_of_load(load, first)
        batches, part = basis.held._bring(load._file)
        names, relied = basis.names, basis.relied
        del basis
        if part:
            self._put_beside(part, names, relied)
        else:
            part_folder.keep(self.path, relied)
        return batches

    def _holds(self, batch: BatchName) -> bool:
        """Whether a part has this batch."""
        (skim, _), _ = self._looked(lambda names: self._gathered(names, Skim(batch, 1), lambda data: False))
        return skim.opened()[0].batches() > 0

    def _put_beside(self, part: bytes, names: list[str], relied: list[str]) -> None:
        """Puts the part of a change, which goes with the parts of these names, of which it was made, if no others are there. If one came
        since, it is looked at, and the part is put anew: of two parts that are put at once, and have other rows under one name, one is
        refused. If the file system has no lock of the folder it goes without, and readers find the two. Those on which the change rests are
        kept before.

        Raises:
            Refused: `Conflict`.
            Busy: others have had the folder for ten seconds, or parts have come for so long.
            OSError: a part on which it rests can't be synced, and nothing is put.
        """

        def look(found: list[str]) -> None:
            since = [name for name in found if name not in names]
            if since:
                Table(part).merge(Table._of_parts(self._taken(since)))

        wait = self._wait()
        try:
            while not part_folder.put_beside(self.path, part, names, relied):
                _, names = self._looked(look)
                wait.again()
        except OSError as fault:
            if fault.errno != errno.ENOLCK:
                raise
            self._looked(look)
            part_folder.put(self.path, part, relied)

    def _sized(self) -> list[Tuple[int, str]]:
        """The parts with their sizes, the smallest first."""
        sizes = [(part_folder.size(self.path, name), name) for name in part_folder.listed(self.path)]
        return sorted((size, name) for size, name in sizes if size is not None)

    def _chosen(self, everything: bool) -> list[str]:
        """The parts that are joined next."""
        sized = self._sized()
        count = len(sized) if everything else calls.packed_prefix([size for size, _ in sized])
        return [name for _, name in sized[:count]]

    def _pack(self, names: list[str]) -> Optional[int]:
        """Joins parts into one and removes them, but for the one that is the join itself; how many were removed. None if a pack or a forget
        was here meanwhile."""
        try:
            parts = self._taken(names)
        except FileNotFoundError as gone:
            if folder_driver.leads_nowhere(gone.filename):
                raise
            return None
        return part_folder.replace(self.path, parts.pack(folder_driver.temporary()), parts.length)

    def _wait(self) -> Wait:
        """A wait for others, who take parts away."""
        return Wait("parts of this folder come and go", self.path)


def _opened(file: OpenFile, path: str) -> int:
    """The number of a folder that is opened.

    Raises:
        NotADirectoryError, FileNotFoundError: there is no such folder.
    """
    try:
        return file.open_folder(path)
    except NotADirectoryError as fault:
        raise NotADirectoryError(fault.errno, "this is a file, and not a folder: lanes.open opens either", path) from None
    except FileNotFoundError as fault:
        raise FileNotFoundError(fault.errno, "there is no such folder: Folder.create makes one", path) from None


def _all_of(offers: Iterable[bytes], empty: calls.Opened) -> Tuple[calls.Opened, Optional[Refused]]:
    """What offers have together, or nothing and why they are refused."""
    own = empty
    try:
        for offer in offers:
            with explaining.of_input(offer):
                own = own.with_offer(offer)
    except Refused as refusal:
        return empty, refusal
    return own, None
