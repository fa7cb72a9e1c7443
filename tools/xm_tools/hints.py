"""How a name or a value of a description that is not known is mended: the one that is nearest to it, or those that are known."""

import difflib
from collections.abc import Iterable

from xm_tools.reference import reference
from xm_tools.values import ACTION, EVENT


def of_known(name: str, known: Iterable[str], what: str) -> str:
    """The known name that is nearest, and all of them."""
    names = list(known)
    listed = f"{what} {', '.join(names) if names else 'none'}"
    near = difflib.get_close_matches(name, names, 1)
    return f"write {near[0]}; {listed}" if near else listed


def of_attribute(element: str, name: str) -> str:
    return of_known(name, (form.name for form in reference().elements[element].attributes), f"attributes of {element}:")


def of_child(parent: str, name: str) -> str:
    """Of an element that is not known, or not in this parent, which may be unknown, too."""
    if parent not in reference().elements:
        return f"see to {parent} first"
    return of_known(name, (child.name for child in reference().elements[parent].children), f"children of {parent}:")


def of_value(name: str, form: str, value: str) -> str:
    if form in reference().forms:
        return f"{name} has the form {form}: {reference().forms[form]}"
    if form.startswith(EVENT):
        return of_known(value, (EVENT + event.name for event in reference().events), "events:")
    if form.startswith(ACTION):
        return of_known(value, (ACTION + action for action in reference().actions), "actions:")
    return f"{name} is {form}"
