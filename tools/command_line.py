"""The help of the tools: usage, description, options, exit statuses and examples, from a tool's docstring."""

import argparse
from typing import Optional

STATUSES = "\nExit status:\n"


def parser_of(name: str, text: Optional[str], usage: Optional[str] = None) -> argparse.ArgumentParser:
    """Returns a parser with the description of a docstring. What begins with `Exit status:` follows the options."""
    description, head, rest = (text or "").partition(STATUSES)
    return argparse.ArgumentParser(
        prog=name,
        usage=usage,
        description=description.strip(),
        epilog=(head + rest).strip(),
        formatter_class=argparse.RawDescriptionHelpFormatter,
    )
