"""Takes functions, structures and constants from a folder of ixy.rs's source, as they stand, and builds them inside a shim in a folder that is gone
afterwards: nothing of the Rust's text stands here.
"""
import re
import subprocess
import sys
from contextlib import contextmanager
from pathlib import Path
from tempfile import TemporaryDirectory

from rust.constants import constants

HEAD = r"^ *(?:pub(?:\(crate\))? )?(?:unsafe )?"
TOKENS = re.compile(r"""//[^\n]*|"(?:\\.|[^"\\])*"|'(?:\\.|[^'\\])'|[{}]""")  # comments, strings and characters may have braces too
NUMBERS = re.compile(r"^(?:pub )?const \w+: (?:usize|u64|u32|u16|u8|i32)\b[^;]*;", re.MULTILINE)


def item(text, head):
    """The text of an item, as `struct Packet`, from its head to the brace that closes its first one."""
    begin, depth = re.search(rf"{HEAD}{head}\b", text, re.MULTILINE), 0
    for token in TOKENS.finditer(text, begin.start()) if begin else ():
        depth += {"{": 1, "}": -1}.get(token[0], 0)
        if token[0] == "}" and depth == 0:
            return text[begin.start() : token.end()]
    return sys.exit(f"the source has no {head}")


def methods(text, names, shim):
    """Some methods and all that they call on their device, but for what the shim has."""
    names, own = list(names), re.findall(r"\bfn (\w+)", shim)
    for name in names:
        body = item(text, f"fn {name}")
        yield body
        names += [called for called in dict.fromkeys(re.findall(r"\bself\s*\.(\w+)\(", body)) if called not in names + own]


def harness(shim, folder, items, roots):
    """The text of the whole program: the table, the shim, and from the source's files some items, all constants that are numbers, and the device's
    methods.
    """
    texts = {name: (folder / "src" / name).read_text() for name in items}
    taken = [item(texts[name], head) for name, heads in items.items() for head in heads]
    numbers = [number for text in texts.values() for number in NUMBERS.findall(text)]
    body = "\n\n".join(methods(texts["ixgbe.rs"], roots, shim))
    return "\n".join([*constants(), shim, *numbers, *taken, f"impl IxgbeDevice {{\n{body}\n}}\n"])


@contextmanager
def built(shim_file, source, items, roots):
    """The program, compiled as a release is: sums wrap. It is there as long as the context is."""
    shim = Path(__file__).with_name(shim_file).read_text()
    with TemporaryDirectory() as folder:
        text, program = Path(folder) / "play.rs", Path(folder) / "play"
        text.write_text(harness(shim, Path(source), items, roots))
        subprocess.run(["rustc", "--edition", "2021", "-A", "warnings", "-O", "-o", program, text], check=True)
        yield program
