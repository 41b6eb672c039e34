"""The names of the site's file of names, which is read again when it changes, and the search in them."""
import bisect
import pathlib
from array import array
from dataclasses import dataclass
from itertools import accumulate

from temzaar.faults import FileState, ToolFault, file_state
from temzaar.hub.config import NamesKeys
from temzaar.hub.notes import note, warn
from temzaar.hub.worker import Late, Worker
from temzaar.names import NO_NAMES, Kind, Names, NamesFault, NamesFile, scan_names

# Seconds that a look may take: a file of 16 MiB on a slow disk is read within them.
LOOK_SECONDS = 60.0
# The order in which a search lists what it finds.
SEARCHED = (Kind.CARRIER, Kind.TALKGROUP, Kind.RADIO)


@dataclass(frozen=True)
class Row:
    """A name, and what has it."""
    kind: Kind
    number: int
    name: str


class NameIndex:
    """All names in one text, so that a search takes milliseconds."""

    def __init__(self, names: Names) -> None:
        # the numbers of each kind in their order, and no object for each name: the collector of garbage would stop the loop for them
        self.names, self.numbers = names, {kind: array("I", sorted(names.by_kind.get(kind, {}))) for kind in SEARCHED}
        folded = [f"{names.by_kind[kind][number].casefold()}\n" for kind, numbers in self.numbers.items() for number in numbers]
        self.text, self.starts = "".join(folded), array("I", accumulate(map(len, folded), initial=0))

    def _row(self, place: int) -> Row:
        """The name at a place of the text's lines."""
        kind = next(it for it in SEARCHED if (place := place - len(self.numbers[it])) < 0)
        number = self.numbers[kind][place]
        return Row(kind, number, self.names.by_kind[kind][number])

    def find(self, text: str, most: int) -> tuple[list[Row], bool]:
        """The names that have a text of one line in them, in upper or lower case, `most` of them; and whether these are all."""
        wanted, found, at = text.casefold(), list[Row](), 0
        while wanted and (at := self.text.find(wanted, at)) >= 0:
            place = bisect.bisect_right(self.starts, at) - 1
            if len(found) == most:
                return found, False
            found.append(self._row(place))
            at = self.starts[place + 1]
        return found, True


class NameBook:
    """The names that the hub shows. Of a file that cannot be used nothing is taken: the names that were read before stay."""

    def __init__(self, keys: NamesKeys) -> None:
        self.keys, self.worker = keys, Worker("names", LOOK_SECONDS)
        self.names, self.index = NO_NAMES, NameIndex(NO_NAMES)
        # how many times names were taken, and how many lines of the last file are not used
        self.version = self.bad_count = 0
        self.known: FileState = None
        self.fault = ""

    @property
    def is_used(self) -> bool:
        """Whether the config names a file."""
        return bool(self.keys.file)

    async def look(self) -> None:
        """Takes the names of a file that has changed, if one can be used."""
        try:
            found = await self.worker.do(self._read)
        except Late as fault:
            self._fail(f"{self.keys.file}: {fault}")
        except (ToolFault, OSError, ValueError, MemoryError) as fault:
            # what kept the hub from reading it may end without a change of the file
            self.known = None
            self._fail(str(fault) or type(fault).__name__)
        else:
            if found:
                self._take(*found)

    def _read(self) -> tuple[FileState, NamesFile, NameIndex] | None:
        """The file's state before it was read, what it has, and the index of its names; None if it has not changed. It runs in a thread, and changes nothing."""
        state = file_state(self.keys.file)
        if state is not None and state == self.known:
            return None
        if pathlib.Path(self.keys.file).is_fifo():
            # it would wait for somebody who writes
            raise NamesFault(f"{self.keys.file}: a pipe, and not a file")
        file = scan_names(self.keys.file)
        return state, file, NameIndex(file.names)

    def _take(self, state: FileState, file: NamesFile, index: NameIndex) -> None:
        """Takes what was read."""
        self.known = state
        if fault := file.fault():
            self._fail(fault)
            return
        self.names, self.index, self.fault = file.names, index, ""
        self.version, self.bad_count = self.version + 1, file.bad_count
        note(f"names: {self.keys.file}: {len(self.names)} {'name' if len(self.names) == 1 else 'names'}")
        for line in file.notes():
            warn(f"names: {line}")

    def _fail(self, fault: str) -> None:
        """Notes why a file cannot be used, once."""
        if fault != self.fault:
            self.fault = fault
            warn(f"names: {fault}; the names that were read before stay")
