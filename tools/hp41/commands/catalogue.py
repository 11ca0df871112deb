"""Lists the programs of a library: files, folders with all that is in them, and the containers among them.

usage: tools/catalogue [--format FORMAT] [--workers N|MACHINE,..] [--out OUT] FOLDER|FILE ..
       tools/catalogue --shard I/N FOLDER|FILE ..
       tools/catalogue [--format FORMAT] [--out OUT] --join PART ..

A line for each program has its file, the names of its labels, its bytes and registers, its lines, the SIZE that it needs, a hash of its
lines, the functions of modules and the programs that it calls, its lines that are not supported, and doubts about it. SIZE is that of
the registers that lines name; `indirect too` says that lines use further registers by IND. Two programs with the same hash have the same
lines, in any spelling; a copy has the same bytes too. A file that is damaged has a line with its first error, and no other.

  --format FORMAT  text (the default); csv, a table; json, with the lines of each program; or html, one page with a listing of each
                   program, to browse and to search without a server
  --workers N      so many processes share the files; the default is one for each core. With names of machines, such as ann@one,ann@two,
                   GNU parallel runs shares of the work there by ssh; they need the same files at the same paths
  --shard I/N      prints the results of share I of N, counted from 1, for a batch system
  --join           joins the output of all N shares, which are files, in the order of the library
  --out OUT        writes the catalogue to this file. After an error, an older OUT is unchanged

The last line of the text counts the files and programs; with another format it is on standard error. At a terminal, standard error
shows the progress. docs/OLD-PROGRAMS.md explains the columns.

Status 0: each file was read. 1: a file was refused, or there is an error; the catalogue has all others. 2: the command line is wrong.
70: the bench gave no answer."""
import argparse
import csv
import io
import json
import os
import sys
from dataclasses import asdict
from typing import Dict, List

from .. import TOOLS
from ..catalogue import Row, files_in, joined, rows_of
from ..commandlines import Parser
from ..decks import Failure, bytes_of
from ..files import check_out, put
from ..shares import by_machines, cores, part_text, share_of, spread, workers_of
from ..shares import joined as parts_joined

PAGE = os.path.join(TOOLS, "catalogue.html")

# So many files are read together.
TOGETHER = 64
COLUMNS = ("file", "state", "labels", "bytes", "registers", "lines", "size", "indirect", "calls", "unsupported", "doubts", "hash",
           "same", "why")
FORMATS = ("text", "csv", "json", "html")


def gathered(paths: List[str], words: List[str], options: argparse.Namespace) -> List[List[Row]]:
    """Returns the rows of each file, which processes or machines share."""
    workers, machines = options.workers
    if not machines:
        return list(spread(rows_of, paths, workers, TOGETHER, "files"))
    return [[Row(**row) for row in rows] for rows in by_machines("catalogue", words, machines, "shares")]


def count_of(rows: List[Row], files: int) -> str:
    """Returns the line that counts files and programs."""
    programs = [row for row in rows if row.state == "program"]
    counts: Dict[str, int] = {state: sum(row.state == state for row in rows) for state in ("none", "refused")}
    doubtful = sum(bool(row.doubts or row.unsupported) for row in programs)
    return (f"{files:,} file{'' if files == 1 else 's'}: {len(programs):,} program{'' if len(programs) == 1 else 's'}, "
            f"{doubtful:,} of them with doubts or unsupported lines, "
            f"{sum(bool(row.same) for row in programs):,} the same as another; {counts['refused']:,} refused, "
            f"{counts['none']:,} without a program")


def line_of(row: Row) -> str:
    """Returns the line of a row in the text."""
    if row.state != "program":
        return f"{row.file}: {'refused: ' if row.state == 'refused' else 'no program: '}{row.why}"
    size = f"SIZE {row.size:03}{', indirect too' if row.indirect else ''}"
    parts = [f"{row.file}: {', '.join(row.labels) or 'no label'}: {row.bytes} bytes, {row.registers} registers, {row.lines} lines, {size}, "
             f"hash {row.hash}"]
    parts += [f"{name}: {', '.join(found)}" for name, found in (("calls", row.calls), ("not supported", row.unsupported)) if found]
    parts += [f"doubts: {', '.join(row.doubts)}"] if row.doubts else []
    return "; ".join(parts + [row.same] if row.same else parts)


def as_text(rows: List[Row], count: str) -> str:
    """Returns the catalogue as a text."""
    return "".join(f"{line}\n" for line in [*map(line_of, rows), count])


def as_csv(rows: List[Row], _count: str) -> str:
    """Returns the catalogue as a table, without the lines of programs."""
    out = io.StringIO()
    table = csv.writer(out, lineterminator="\n")
    table.writerow(COLUMNS)
    for row in rows:
        values = [getattr(row, name) for name in COLUMNS]
        table.writerow(["; ".join(value) if isinstance(value, list) else value for value in values])
    return out.getvalue()


def as_json(rows: List[Row], _count: str) -> str:
    """Returns the catalogue as JSON, a list with an object for each row."""
    found = [{name: value for name, value in asdict(row).items() if name in (*COLUMNS, "listing")} for row in rows]
    return "[\n" + ",\n".join(json.dumps(one, ensure_ascii=False) for one in found) + "\n]\n"


def as_html(rows: List[Row], count: str) -> str:
    """Returns the catalogue as a page. No text of a file can end its script."""
    page = bytes_of(PAGE).decode()
    return page.replace("@DATA@", as_json(rows, count).replace("<", "\\u003c"))


WRITERS = {"text": as_text, "csv": as_csv, "json": as_json, "html": as_html}


def read_options(words: List[str]) -> argparse.Namespace:
    """Parses the command line."""
    parser = Parser(prog="catalogue", add_help=False, allow_abbrev=False,
                    usage="tools/catalogue [--format FORMAT] [--workers N|MACHINE,..] [--out OUT] FOLDER|FILE ..; "
                          "see --help")
    parser.add_argument("--format", choices=FORMATS, default="text")
    parser.add_argument("--workers", type=workers_of, default=workers_of(str(cores())))
    parser.add_argument("--shard", type=share_of)
    parser.add_argument("--join", action="store_true")
    parser.add_argument("--out", default="-")
    parser.add_argument("paths", nargs="+", metavar="FOLDER|FILE")
    options = parser.parse_args(words)
    if options.shard and options.join:
        parser.error("--shard cannot be used with --join: --shard I/N makes one of N shares, --join joins shares that are made")
    return options


def main(words: List[str]) -> int:
    """Writes the catalogue. Returns the status."""
    if words in (["-h"], ["--help"]):
        print(__doc__.strip())
        return 0
    options = read_options(words)
    missing = [path for path in options.paths if not os.path.lexists(path)]
    if missing:
        raise Failure(f"{missing[0]}: no such file or folder: expected the path of a file, or of a folder with files")
    if options.join:
        check_out(options.out, [("a file that is read", path) for path in options.paths])
        return written([[Row(**row) for row in rows] for rows in parts_joined("catalogue", options.paths)], options)
    paths = list(files_in(options.paths))
    check_out(options.out, [("a file that is read", path) for path in paths])
    if options.shard:
        own = gathered(options.shard.own(paths), [], options)
        put(part_text("catalogue", options.shard, len(paths), [[asdict(row) for row in rows] for rows in own]).encode(), options.out)
        return 0
    return written(gathered(paths, ["--", *options.paths], options), options)


def written(found: List[List[Row]], options: argparse.Namespace) -> int:
    """Writes the catalogue of the rows of each file. Returns the status."""
    rows = joined([row for own in found for row in own])
    count = count_of(rows, len(found))
    put(WRITERS[options.format](rows, count).encode("utf-8", "backslashreplace"), options.out)
    if options.format != "text":
        print(f"catalogue: {count}", file=sys.stderr)
    return int(any(row.state == "refused" for row in rows))
