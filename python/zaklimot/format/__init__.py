"""The formats of scripts and reports: one table, and the code that reads and writes by it.

    >>> from zaklimot import format
    >>> script = format.parse_text("version 2\\nrepeat 2\\nout 3c4 2\\nend\\n")
    >>> format.encode(script).hex()
    '56474153020d020001c403020e'
    >>> [step.name for step in script.steps()]
    ['out', 'out']
    >>> print(format.print_text(format.decode(format.encode(script))), end="")
    version 2
    repeat 2
    out 3C4 02
    end

`parse_text` reads a text, `decode` reads bytes, and `read` reads either. A `ScriptFault` names the
fault as the program does. `Report` reads a report answer by answer, and `is_answer_to` says whether
a step may answer so. docs/SCRIPT.md and docs/REPORT.md describe the formats. This package needs
Python 3.9 and its standard library.
"""

from .answers import is_answer_to
from .binary import decode, encode, encoded, is_bytes, items_in, read
from .lines import Line, count_in, lines_in, places_in, steps_in, words_in
from .picture import Digest, Picture
from .report import Answer, Report, ReportError
from .script import Block, Script, Step
from .table import (
    BLOCK,
    BLOCK_LINES,
    END,
    FAULT,
    FAULTS,
    FIRST_LINE,
    FONT_BYTES,
    FORMS,
    HEADERS,
    LINE,
    MAGIC,
    MOST_ADVANCE,
    MOST_BLOCK,
    MOST_BYTES,
    MOST_COUNT,
    MOST_STEPS,
    OPCODES,
    PLANE_BYTES,
    READING,
    REFUSALS,
    REGISTERS,
    REPEAT,
    SHOWN,
    STATE,
    Fault,
    Field,
    Form,
    ScriptFault,
    decimal,
    refusal_of,
)
from .text import parse_line, parse_text, print_text, printed

__all__ = [
    "BLOCK",
    "BLOCK_LINES",
    "END",
    "FAULT",
    "FAULTS",
    "FIRST_LINE",
    "FONT_BYTES",
    "FORMS",
    "HEADERS",
    "LINE",
    "MAGIC",
    "MOST_ADVANCE",
    "MOST_BLOCK",
    "MOST_BYTES",
    "MOST_COUNT",
    "MOST_STEPS",
    "OPCODES",
    "PLANE_BYTES",
    "READING",
    "REFUSALS",
    "REGISTERS",
    "REPEAT",
    "SHOWN",
    "STATE",
    "Answer",
    "Block",
    "Digest",
    "Fault",
    "Field",
    "Form",
    "Line",
    "Picture",
    "Report",
    "ReportError",
    "Script",
    "ScriptFault",
    "Step",
    "count_in",
    "decimal",
    "decode",
    "encode",
    "encoded",
    "is_answer_to",
    "is_bytes",
    "items_in",
    "lines_in",
    "parse_line",
    "parse_text",
    "places_in",
    "print_text",
    "printed",
    "read",
    "refusal_of",
    "steps_in",
    "words_in",
]
