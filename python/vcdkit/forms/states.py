"""Names for values, such as those of states, from files that GTKWave takes as filters too."""
import re
from typing import Dict, Sequence, Tuple

from ..errors import UsageError
from ..model.operators import digits_of
from ..model.values import Value
from ..questions.expression import number_of
from ..reading.files import lines_in
from ..reading.source import Source
from .text import AnyForm, Form, form_of, shortest, shown

LINE = re.compile(r"(\S+)\s+(?:\?\w+\?)?\s*(.*\S)")  # a value, maybe a colour, and a name


def names_by_value(path: str) -> Dict[str, Tuple[str, str]]:
    """Returns the names in a file, and the places of their lines, by their values: in hexadecimal,
    or as conditions have them."""
    found: Dict[str, Tuple[str, str]] = {}
    for place, line in lines_in(path):
        its = LINE.match(line)
        if not its:
            raise UsageError(place + "a line is a value and a name")
        is_hex = re.match(r"(?!0[xb])[\da-fxz]+\Z", its.group(1), re.IGNORECASE)
        try:
            value = number_of("0x" * bool(is_hex) + its.group(1))
        except UsageError as error:
            raise UsageError(place + str(error).replace("bad condition: ", "", 1)) from None
        if not value.kind.width:
            raise UsageError("%sa value is digits, and not %s" % (place, its.group(1)))
        found[shortest(digits_of(value.value, value.kind.width))] = its.group(2), place
    if not found:
        raise UsageError("%s: it has no line such as `1 IDLE`" % path)
    return found


def forms_of(dump: Source, states: Sequence[Tuple[str, str]], form: AnyForm) -> Dict[str, Form]:
    """Returns the forms of the signals that names select, each with a file of names for values;
    other values are shown in a form."""
    found: Dict[str, Form] = {}
    for name, path in states:
        lines = names_by_value(path)
        its = [one for one in dump.select(name) if not one.is_real and one.type != "event"]
        for digits, (text, place) in lines.items():
            if all(len(digits) > one.size for one in its):
                raise UsageError("%s%s has more bits than %s" % (place, text, name))
        names = {digits: text for digits, (text, _) in lines.items()}
        found.update((one.path, _named(names, form)) for one in its)
    return found


def _named(names: Dict[str, str], form: AnyForm) -> Form:
    def text(value: Value) -> str:
        return names.get(shortest(value)) or shown(value, form)
    is_number = form is not None and form_of(form).is_number
    return Form("", text, True, is_number, True, True, names)
