"""A folder of files of elements, and what lies beside them: a README, the schema of a file, an
index with the counts and checksums of each, and the checksums in the form of sha256sum."""

import hashlib
import json
from pathlib import Path
from typing import Any, NamedTuple, Sequence

from zaklimot.commands.core.files import check_folder, files
from zaklimot.commands.core.streams import bytes_of, write_file
from zaklimot.commands.core.trouble import Trouble
from zaklimot.commands.core.version import version
from zaklimot.commands.script.library import library_path
from zaklimot.commands.script.words import FONTS

from .kinds import KINDS
from .schema import schema
from .wishes import ElementKind

# The number of the format of the elements' files, which goes up when a loader must change.
FORMAT = 1
HERE = Path(__file__).parent
README = "README.md"
CHECKSUMS = "SHA256SUMS"
# Files of elements that are not packed end in .json too, so these lie in a folder of their own.
ABOUT = "about"
INDEX = f"{ABOUT}/index.json"
SCHEMA = f"{ABOUT}/schema.json"
BESIDE = (README, CHECKSUMS, ABOUT)
PACKED = ".json.gz"
PLAIN = ".json"
# Files are read in pieces of so many bytes; an index, a library or a source has at most so many.
PIECE = 1 << 20
MOST_INDEX = 1 << 20
MOST_SOURCE = 1 << 26
NO_INDEX = "it is no index of single-step tests: name another folder, or take the file away"


class ListedFile(NamedTuple):
    """A file of elements as the index has it. `made_by` is the checksum of all that it depends on
    beside the count and the seed."""

    file: str
    kind: str
    elements: int
    seed: int
    bytes: int
    sha256: str
    made_by: str


def _checksum(path: Path) -> str:
    """The SHA-256 of a file."""
    found = hashlib.sha256()
    with open(path, "rb") as stream:
        while piece := stream.read(PIECE):
            found.update(piece)
    return found.hexdigest()


def _maker() -> str:
    """The checksum of what makes elements: the library, the font, and the modules here."""
    found = hashlib.sha256()
    for path in (Path(library_path()), Path(FONTS), *sorted(HERE.glob("*.py"))):
        found.update(hashlib.sha256(bytes_of(path, MOST_SOURCE)).digest())
    return found.hexdigest()


class Archive:
    """A folder of files of elements of so many elements each, by a seed."""

    def __init__(self, folder: str, count: int, seed: int, is_plain: bool) -> None:
        check_folder(folder)
        self._count, self._seed, self._is_plain = count, seed, is_plain
        self._made_by = _maker()
        self.folder = Path(folder)
        self._listed = self._read_index()
        files().make_folder(folder)

    def path(self, kind: ElementKind) -> Path:
        """Where the file of a kind lies."""
        return self.folder / (kind.name + (PLAIN if self._is_plain else PACKED))

    def _read_index(self) -> dict[str, ListedFile]:
        """The files that the index lists and that are there, by their names."""
        index = self.folder / INDEX
        if not index.exists():
            for name in BESIDE:
                if (self.folder / name).exists():
                    told = f"`steps make` would replace {name}, which it has not made"
                    raise Trouble(f"{told}: name another folder", str(self.folder))
            return {}
        try:
            listed = json.loads(bytes_of(index, MOST_INDEX))["files"]
            found = [_listed_file(one) for one in listed]
        except (ValueError, KeyError, TypeError, RecursionError) as error:
            raise Trouble(NO_INDEX, str(index)) from error
        return {one.file: one for one in found if (self.folder / one.file).is_file()}

    def has(self, kind: ElementKind) -> bool:
        """Whether the file of a kind is there, as it would be made now."""
        path = self.path(kind)
        one = self._listed.get(path.name)
        wanted = (kind.name, self._count, self._seed, self._made_by)
        if one is None or (one.kind, one.elements, one.seed, one.made_by) != wanted:
            return False
        return path.stat().st_size == one.bytes and _checksum(path) == one.sha256

    def add(self, kind: ElementKind) -> None:
        """Adds the file of a kind, which was made, to the index."""
        path = self.path(kind)
        self._listed[path.name] = ListedFile(
            path.name,
            kind.name,
            self._count,
            self._seed,
            path.stat().st_size,
            _checksum(path),
            self._made_by,
        )
        files().make_folder(self.folder / ABOUT)
        self._write_json(INDEX, self._index())

    def finish(self) -> None:
        """Writes what lies beside the files."""
        self._write_json(INDEX, self._index())
        self._write_json(SCHEMA, schema())
        self._write(README, self._readme())
        found = {one.file: one.sha256 for one in self._files()}
        found.update({name: _checksum(self.folder / name) for name in (INDEX, SCHEMA, README)})
        self._write(CHECKSUMS, "".join(f"{checksum}  {name}\n" for name, checksum in found.items()))

    def _files(self) -> Sequence[ListedFile]:
        """The listed files, in the order of the table of kinds."""
        order = {name: number for number, name in enumerate(KINDS)}
        return sorted(
            self._listed.values(), key=lambda one: (order.get(one.kind, len(order)), one.file)
        )

    def _index(self) -> dict[str, Any]:
        listed = [one._asdict() for one in self._files()]
        return {"format": FORMAT, "zaklimot": str(version()), "files": listed}

    def _readme(self) -> str:
        rows = (
            f"| `{one.file}` | {one.elements:,} | {one.seed} | {_shown_by(one.kind)} |"
            for one in self._files()
        )
        text = (HERE / "archive.md").read_text("ascii")
        return text.replace("@FORMAT@", str(FORMAT)).replace("@FILES@", "\n".join(rows))

    def _write(self, name: str, text: str) -> None:
        write_file(str(self.folder / name), text.encode("ascii"))

    def _write_json(self, name: str, value: object) -> None:
        self._write(name, json.dumps(value, indent=1) + "\n")


def _listed_file(entry: dict[str, Any]) -> ListedFile:
    """A file as an index lists it; a ValueError or a TypeError where it doesn't."""
    one = ListedFile(**entry)
    kinds = (str, str, int, int, int, str, str)
    if tuple(map(type, one)) != kinds or Path(one.file).name != one.file:
        raise ValueError(one)
    return one


def _shown_by(kind: str) -> str:
    """What a kind shows; nothing of one that there is no more."""
    return KINDS[kind].told if kind in KINDS else ""
