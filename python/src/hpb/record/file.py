"""The record to which a running front adds entries: its last segment, the torn end that a crash may leave, and the next segment
(docs/FRONT.md)."""
import fcntl
import hashlib
import os
from collections.abc import Sequence
from typing import Protocol

from hpb.own_files import is_at, look_at_owner, open_own
from hpb.record.asked import AskedFile, Mark
from hpb.record.entries import (
    FIRST, FIRST_FORM, FORM, HASH_BYTES, NO_HASH, Damaged, Entry, InUse, New, Place, content_of, entries_of, entry_line,
    time_now,
)
from hpb.record.kept import NotKept, look_at_length, look_at_name, pieces_of
from hpb.record.segments import (
    MOST_SEGMENT, Behind, digest_of, first_line, head_line, head_of, lines_of_round, look_at_seals, segment_path, segment_paths,
    sync_folder, write_aside, write_segment,
)
from hpb.record.state import State
from hpb.record.torn import may_be_first, may_be_one_write

HOW = os.O_RDWR | os.O_APPEND
# The kind of an entry whose fields are texts, so that they come back from JSON as they are.
ACCEPTED = "accepted"


class Book(Protocol):
    """Completes entries that are about to be written behind a place, and learns of each with its segment and its place there."""

    def completed(self, entry: New, place: Place) -> Entry: ...
    def took(self, line: bytes, segment: int, at: int) -> None: ...


class RecordFile:
    """A record to which entries are added. `place` is behind the last entry on the disk, and `state` is the auction's state there."""

    def __init__(self, path: str, most_segment: int = MOST_SEGMENT) -> None:
        """Takes the record's lock, and makes the record if there is none. An InUse says that another front has it. A WrongSegment says that
        a segment is missing. An OSError may say that somebody else owns the record or may write it."""
        self.path, self.most_segment = str(path), most_segment
        paths = segment_paths(self.path)
        self.is_new = not paths
        self.lock = open_own(self.path, HOW, may_make=self.is_new)
        self.file = self.lock
        try:
            fcntl.flock(self.lock, fcntl.LOCK_EX | fcntl.LOCK_NB)
            self.asked = AskedFile(self.path)
            sync_folder(self.path)
        except BlockingIOError:
            os.close(self.lock)
            raise InUse from None
        except OSError:
            os.close(self.lock)
            raise
        self.place, self.state, self.digest, self.length = Place(), State(), hashlib.sha256(), 0
        self.segment = 1
        self.not_kept: NotKept | None = None
        # With seals, what completes each entry, and learns of it.
        self.book: Book | None = None

    # The start.

    def open(self, may_set_aside: bool = False) -> Entry | None:
        """Reads the last segment, and compares the seals of those before it. If a crash left a torn end, sets it aside, and returns its
        length and the file that holds it now. A Damaged says which part was changed, is missing, or belongs to another record."""
        paths, mark = segment_paths(self.path), self.asked.mark()
        for path in paths:
            look_at_owner(path, os.stat(path))
        look_at_seals(paths)
        self.segment = len(paths)
        if self.segment > 1:
            self.file = open_own(paths[-1], HOW, may_make=False)
        marked, fault = self.read_segment(paths[-1], mark)
        torn = os.fstat(self.file).st_size - self.length
        try:
            if torn:
                self.look_behind(paths[-1], fault)
            self.look_at_mark(mark, marked)
        except Damaged:
            if not may_set_aside:
                self.leave_none()
                raise
        # A front that was killed may have left entries that aren't on the disk yet.
        os.fdatasync(self.file)
        self.take_asked(mark)
        aside = self.set_aside(torn) if torn else None
        if self.state.lines is None and not self.state.foreign:
            self.state.lines = lines_of_round(self.path)
        return aside

    def leave_none(self) -> None:
        """Removes a record that was made here and has nothing yet, since the right one is another."""
        if self.is_new and not os.fstat(self.lock).st_size and is_at(self.lock, self.path):
            os.unlink(self.path)

    def read_segment(self, path: str, mark: Mark) -> tuple[str, str]:
        """Reads the last segment's whole entries. Gives the hash of the marked entry, if this segment has it, and the fault of the first
        entry that isn't whole, if there is one."""
        self.place = head_of(path)[1] if self.segment > 1 else Place()
        marked = fault = ""
        with open(path, "rb") as file:
            try:
                for entry, self.place in entries_of(file, self.place):
                    self.state.take(entry)
                    self.length = file.tell()
                    marked = self.place.hash if self.place.number == mark.synced.number else marked
            except Damaged as damage:
                fault = str(damage)
        self.digest = digest_of(path, self.length)
        return marked, fault

    def look_behind(self, path: str, fault: str) -> None:
        """Checks the bytes after the whole entries: a crash can tear only the last write, before it is synced. If they show anything else,
        a Damaged says so."""
        with open(path, "rb") as file:
            if not self.place.number and not may_be_first(file.read(HASH_BYTES + len(FIRST))):
                raise Damaged("entry 1 isn't one: is it another file?")
            file.seek(self.length)
            if not may_be_one_write(file, self.place.number + 1, self.state.form if self.place.number else FORM):
                raise Damaged(f"{fault}; what stands behind it shows that it was on the disk, so it was changed")

    def look_at_mark(self, mark: Mark, marked: str) -> None:
        """Checks that the record has the entry that was synced last, as far as the file beside it says. If not, a Damaged says why."""
        name = os.path.basename(self.path)
        if self.place.number and mark.synced.number and mark.first != first_hash(self.path):
            raise Damaged(f"{os.path.basename(self.asked.path)} belongs to another record than {name}")
        if mark.synced.number > self.place.number:
            raise Damaged(f"entry {mark.synced.number} was on the disk, and {name} ends behind entry {self.place.number}: it was changed or cut, "
                          "or is an older copy")
        if marked and marked != mark.synced.hash:
            raise Damaged(f"entry {mark.synced.number} isn't the one that was on the disk: {name} is another copy")

    def take_asked(self, mark: Mark) -> None:
        """Goes on with the file beside the record. If that file belongs to another record, it is set aside."""
        first = first_hash(self.path) if self.place.number else NO_HASH
        if mark.synced.number and mark.first != first:
            write_aside(self.asked.path, [self.asked.data()])
            self.asked.forget()
        self.asked.first = first
        if self.place.number:
            self.asked.note(self.place)

    def set_aside(self, torn: int) -> Entry:
        """Moves the bytes after the whole entries into a file of their own."""
        aside = write_aside(self.path, pieces_of(self.file, self.length))
        os.ftruncate(self.file, self.length)
        os.fsync(self.file)
        return {"bytes": torn, "aside": os.path.basename(aside)}

    # Entries.

    def write(self, entries: Sequence[New]) -> None:
        """Adds entries by one write. They are on the disk when this returns. After an OSError they may be there or not, so the record has
        to be opened again before anything is added. A NotKept says that another program did something to the record."""
        # An entry behind another program's bytes would be damage, so the length is looked at first; names are looked at in the end.
        look_at_length(self.file, self.length, segment_path(self.path, self.segment))
        if self.needs_segment():
            self.begin_segment()
        self.add(entries)
        self.look()
        # If another file has the next segment's name, this segment goes on. The next start reports it.
        if self.length >= self.most_segment and not os.path.lexists(segment_path(self.path, self.segment + 1)):
            self.add([New("sealed", {"bytes": self.length, "sha256": self.digest.hexdigest()}, time_now())])
            self.begin_segment()

    def look(self) -> None:
        """Checks that the files of the record which are open have their names, and the last segment its length. The front looks at the
        others at its start. After a NotKept each further look raises it again, and saves nothing twice."""
        if self.not_kept:
            raise self.not_kept
        last = segment_path(self.path, self.segment)
        try:
            for file, path in {self.lock: self.path, self.file: last, self.asked.file: self.asked.path}.items():
                look_at_name(file, path)
            look_at_length(self.file, self.length, last)
        except NotKept as fault:
            self.not_kept = fault
            raise

    def add(self, entries: Sequence[New]) -> None:
        place, lines, at = self.place, list[bytes](), self.length
        for entry in entries:
            fields = self.book.completed(entry, place) if self.book else entry.fields
            line, place = entry_line(place, entry.kind, fields, entry.at, self.place.number)
            if self.book:
                self.book.took(line, self.segment, at)
            lines.append(line)
            at += len(line)
        data = b"".join(lines)
        write_all(self.file, data)
        os.fdatasync(self.file)
        for entry, line in zip(entries, lines, strict=True):
            self.state.take({"kind": entry.kind, **entry.fields} if entry.kind == ACCEPTED else content_of(line))
        self.digest.update(data)
        self.length, self.place = self.length + len(data), place
        self.asked.note(place)
        if entries[-1].kind in ("stopped", "seal"):
            self.asked.sync()

    def begin(self, definition: object) -> None:
        """Begins a new record."""
        state = {"state": State().head()}
        self.add([New("begin", {"form": FORM, "segment": 1, "definition": definition, **state}, time_now())])

    def needs_segment(self) -> bool:
        """Whether nothing may be added to the last segment: it is sealed, or has another form."""
        return self.place.number > 0 and (self.state.is_sealed or self.state.form == FIRST_FORM)

    def begin_segment(self) -> None:
        """Begins a new segment after the last one."""
        behind = Behind(self.length, self.digest.hexdigest())
        line, place = head_line(self.place, self.state, self.segment + 1, behind)
        path = write_segment(self.path, self.segment + 1, line)
        self.segment += 1
        if self.file != self.lock:
            os.close(self.file)
        self.file = open_own(path, HOW, may_make=False)
        self.state.take(content_of(line))
        if self.book:
            self.book.took(line, self.segment, 0)
        self.digest, self.length, self.place = hashlib.sha256(line), len(line), place
        self.asked.note(place)

    def close(self) -> None:
        """Lets go of the record."""
        for file in {self.file, self.lock}:
            os.close(file)
        self.asked.close()


def first_hash(path: str) -> str:
    return first_line(path)[:HASH_BYTES].decode("latin-1")


def write_all(file: int, data: bytes) -> None:
    while data:
        data = data[os.write(file, data) :]
