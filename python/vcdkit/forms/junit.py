"""JUnit files, which CI servers show as tests."""
import re
from typing import NamedTuple, Optional, Sequence

from ..reading.files import write

NOT_OF_XML = "[\0-\x08\x0b\x0c\x0e-\x1f]|[\ud800-\udfff\ufffe\uffff]"


class Test(NamedTuple):
    """A test: the class and the name that a server shows, `failure`, `error`, `skipped` or an empty
    text, a message in one line, and all that there is to say; and what is to be said of any test.
    """

    of: str
    name: str
    kind: str
    message: str
    text: str
    note: str = ""


def clean(text: str) -> str:
    """Returns a text as XML can have it."""
    return re.sub(NOT_OF_XML, "\ufffd", text)


def write_tests(path: Optional[str], name: str, tests: Sequence[Test]) -> None:
    """Writes the file of a suite of tests, if one is asked for."""
    if path is None:
        return
    import xml.etree.ElementTree as xml  # it takes time, and few commands write such a file
    kinds = [test.kind for test in tests]
    suite = xml.Element("testsuite", name=name, tests=str(len(tests)),
                        failures=str(kinds.count("failure")), errors=str(kinds.count("error")),
                        skipped=str(kinds.count("skipped")))
    for test in tests:
        case = xml.SubElement(suite, "testcase", classname=clean(test.of), name=clean(test.name))
        if test.kind:
            found = xml.SubElement(case, test.kind, message=clean(test.message))
            found.text = clean(test.text)
        if test.note:
            xml.SubElement(case, "system-out").text = clean(test.note)
    write(path, [b"<?xml version='1.0' encoding='utf-8'?>\n", xml.tostring(suite, "utf-8")])
