"""The notices of the libraries that the programs are built of, by the kit that built them."""
import pathlib
import re
import shutil

from layout import TOP

HEAD = """No licence has been chosen yet for viewd itself: that is the owner's to choose. Until then nobody else may copy or change it.

The programs are built of these libraries of the Rattle kit, which are ports of Rust's, and whose notices follow: {names}.
"""


def of_kit(kit: pathlib.Path, names: list[str]) -> list[str]:
    """These libraries of the kit and those that they use."""
    found = list(dict.fromkeys(names))
    for name in found:
        uses = re.findall(r"(?m)^dep (\w+)$", (kit / "rlibs" / f"{name}.rlib" / "format").read_text())
        found += [it for it in uses if it not in found]
    return sorted(found)


def below(programs: list[str]) -> list[str]:
    """The libraries of the kit that programs stand on by crates.txt."""
    lines = [it.partition(":") for it in (TOP / "crates.txt").read_text().splitlines() if it.strip() and not it.startswith("#")]
    needs = {name.split()[0]: rest.split() for name, _, rest in lines}
    found = list(programs)
    for name in found:
        found += [it for it in needs.get(name, []) if it not in found]
    return [it for it in found if it not in needs]


def notices() -> str:
    """The text of the file `copyright`."""
    rt = shutil.which("rt")
    if not rt:
        raise ValueError("there is no Rattle kit on the path, whose libraries' notices belong to the programs (rt)")
    kit = pathlib.Path(rt).resolve().parent.parent
    names = of_kit(kit, below(["viewd", "gateway"]))
    text = HEAD.format(names=", ".join(names))
    for name in names:
        for file in sorted((kit / "rattle" / name).glob("LICEN[CS]E*")) + sorted((kit / "rattle" / name).glob("COPYRIGHT*")):
            text += f"\n\n==== {name}, {file.name}\n\n{file.read_text()}"
    return text
