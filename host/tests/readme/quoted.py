"""What README.md quotes of the C example stands there: quoted.py README SOURCE

Each block of C in README.md must be a run of whole lines of the source, letter by letter."""

import pathlib
import re
import sys


def main(readme, source):
    blocks = re.findall(r"^```c\n(.*?)^```$", pathlib.Path(readme).read_text(encoding="utf-8"), re.M | re.S)
    text = "\n" + pathlib.Path(source).read_text(encoding="utf-8")
    wrong = [block for block in blocks if "\n" + block not in text]
    for block in wrong:
        print(f"not in {source}:\n{block}")
    print(f"readme: {len(blocks)} blocks of C, {len(wrong)} other than the example's")
    return 1 if wrong or not blocks else 0


if __name__ == "__main__":
    sys.exit(main(*sys.argv[1:]))
