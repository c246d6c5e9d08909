"""Pages out of the templates in the folder pages, by jinja2."""
import os
from typing import Any

from rehearse_tools.endings import Refused

FOLDER = os.path.join(os.path.dirname(os.path.realpath(__file__)), "pages")


def read_part(name: str) -> str:
    """A file that lies beside the templates."""
    with open(os.path.join(FOLDER, name), encoding="utf-8") as file:
        return file.read()


def rendered(name: str, **values: Any) -> bytes:
    """A page: a template with these values, which are escaped where the template doesn't say otherwise."""
    try:
        from jinja2 import Environment, FileSystemLoader, StrictUndefined
    except ImportError:
        raise Refused("a page needs jinja2, a package of Python that isn't there (python3-jinja2 in Debian)") from None
    environment = Environment(loader=FileSystemLoader(FOLDER), autoescape=True, undefined=StrictUndefined, trim_blocks=True,
                              lstrip_blocks=True, keep_trailing_newline=True)
    # Bytes that aren't UTF-8 can stand in comments alone.
    return environment.get_template(name).render(part=read_part, **values).encode("utf-8", "replace")
