"""What docs/formats.md says: bytes, and numbered refusals."""

import re
from pathlib import Path
from typing import Dict, List

PAGE = (Path(__file__).resolve().parents[3] / "docs" / "formats.md").read_text(encoding="utf-8")


def section(title: str) -> str:
    """The text below a heading, up to the next one that is as high or higher."""
    below = PAGE.partition(f"\n{title}\n")[2]
    return re.split(rf"^#{{1,{len(title.split()[0])}}} ", below, maxsplit=1, flags=re.M)[0]


def worked(title: str) -> List[bytes]:
    """The blocks of bytes below a heading, each with its comments left out."""
    blocks = re.findall(r"(?:^    .*\n)+", section(title), re.M)
    return [b"".join(bytes.fromhex(line[4:28]) for line in block.splitlines()) for block in blocks]


def refusals(title: str) -> Dict[int, str]:
    """The numbers and names in the table below a heading."""
    return {int(number): name for number, name in re.findall(r"^\| (\d+) \| (\w+) \|", section(title), re.M)}
