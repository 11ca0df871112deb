"""The page of a module that tools/import --module makes from the programs of files."""
from typing import Optional

from .decks import block
from .doubts import COMMENT
from .functions import Functions, functions_of
from .inputs import RAW, SOURCE, File, Input
from .listings import Listing
from .modules import LABEL, MOST_FUNCTIONS, ROOM, Module, ProgramLine, lines_of_program, lines_of_texts, programs_of
from .counts import counted
from .programs import broken
from .sources import Source, Whole


class ModulePage(Input):
    """The page made from the programs of files. It is used like a file with a source."""

    def __init__(self, files: list[File], number: int) -> None:
        """Makes the page, or adds errors. It is placed as the first file is."""
        super().__init__(f"module {number}")
        self.kind, self.files, self.placed = SOURCE, files, files[0].placed
        programs = [(file, program) for file in files for program in self.programs_of(file)]
        module = Module(number, [program for _, program in programs])
        if not self.errors:
            self.judge(module, [file.path for file, _ in programs])
        if not self.errors:
            self.make(module)

    def note(self, text: str, line: Optional[int] = None) -> None:
        """Adds a note to the first file."""
        self.files[0].note(text, line)

    def programs_of(self, file: File) -> list[list[ProgramLine]]:
        """Returns the programs of a file. A program is a list of lines with their bytes."""
        if file.kind == RAW:
            lines = lines_of_program(file.data)
        else:
            lines = lines_of_texts(["END" if text == ".END." else text for _, text in file.program])
        if not lines:
            self.errors.append(f"{file.path}: {broken(file.data) if lines is None else 'found no program line, expected at least one'}")
        return programs_of(lines or [])

    def judge(self, module: Module, paths: list[str]) -> None:
        """Adds errors for everything that a module cannot have. `paths` has the file of each program."""
        full = next((path for path, end in zip(paths, module.ends) if end > ROOM), None)
        if full:
            self.errors.append(f"{full}: the page is full: found {module.length:,} words including the table of functions, but the page "
                               f"has room for {ROOM:,}, up to the offset {ROOM - 1:03X}")
        for at, (path, names) in enumerate(zip(paths, module.names)):
            if not names:
                self.errors.append(f"{path}: program {paths[:at].count(path) + 1} has no label with a name, so nothing can call it: "
                                   "add one")
        names = [name for own in module.names for name in own]
        twice = next((name for at, name in enumerate(names) if name in names[:at]), None)
        if twice is not None:
            having = [path for path, own in zip(paths, module.names) for name in own if name == twice]
            self.errors.append(f'{having[1]}: `LBL "{twice}"`: {having[0]} has this label already, and only the first can be '
                               'called: rename one')
        if len(names) > MOST_FUNCTIONS:
            self.errors.append(f"{self.path}: found {len(names)} labels with names, expected at most {MOST_FUNCTIONS}, one for "
                               "each function")

    def make(self, module: Module) -> None:
        """Makes the source of the page, with the end that is described after the last file."""
        self.whole = whole = Whole(self.path, b"".join(line.encode() + b"\n" for line in module.source()), self.files[-1].end)
        self.lines = whole.lines
        self.errors += whole.faults_of(Source(whole.data()))
        self.source_labels = {label: place for place, label in module.labels().items()}
        if not self.errors and [line for line, _ in functions_of([(self.path, block(b"asm 8", whole.at_page("8")))])] != module.shown():
            self.errors.append(f"{self.path}: the functions of the page are not the labels of its programs: please report "
                               "this with the files")


def names_given(files: list[File], functions: Functions, number: int) -> list[tuple[str, str]]:
    """Returns the lines that `show functions` will print for a module made from files, each with its origin."""
    names: list[str] = []
    for file in files:
        texts = [text for _, text in file.program] if file.kind == RAW else Listing(file.decoded(), functions=functions).texts
        names += [found[1] for found in map(LABEL.fullmatch, texts) if found]
    return [(f"XROM {number:02},{at:02} {name}", f"module {number}") for at, name in enumerate(names)]


def doubt_comments(files: list[File]) -> None:
    """Adds a doubt to each listing that becomes part of a page: its comments are not in the page."""
    for file in files:
        if file.read is None:
            continue
        found = sorted({*(number for number, text in enumerate(file.read.texts, 1) if text.startswith("#")), *file.read.beside})
        if found:
            file.read.doubt(COMMENT, found[0], f"{counted(len(found), '{} comment is', '{} comments are')} dropped: a page has none")
