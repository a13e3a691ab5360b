"""The functions of a crate with a body of their own, as its text has them: where each is, by which path a check names it, and where its proof is."""
import os
import re
from dataclasses import dataclass

HEAD = re.compile(r"(?m)^([ \t]*)(?:pub(?:\([^)]*\))? )?(?:const )?fn (\w+)")
TYPE = re.compile(r"(?m)^(?:pub(?:\([^)]*\))? )?(?:struct|enum|trait) (\w+)")
IMPL = re.compile(r"(?m)^impl\b(?:<[^>{}]*>)? *([^{\n]*)")
# the files of a crate's src/ by their paths in the crate
Texts = dict[str, str]


@dataclass
class Function:
    """A function with a body, where its proof is, and where its text is, from its head to its last line. The functions of a cycle
    of calls have one proof, in a folder of the cycle's name after a '+'."""

    path: str
    proof: str
    file: str
    start: int
    end: int
    first_line: int
    last_line: int
    is_test: bool

    def has(self, file: str, place: int) -> bool:
        return self.file == file and self.start <= place < self.end


def module_of(file: str) -> str:
    """The module that a file of src/ is: none for the root."""
    name = file.removeprefix("src/").removesuffix(".rt").replace("/", "::")
    return "" if name in ("lib", "main") else name.removesuffix("::mod")


def owner_of(head: str, types: dict[str, str], module: str) -> tuple[str, str]:
    """The module and the type that a function of an impl with this head is named by."""
    *trait, kind = re.split(r"\bfor\b", head)
    kind = re.findall(r"\w+", kind)[0]
    if not trait:
        return types.get(kind, module), kind
    # the impl of a trait is named by where it is, as From<io::Error> for ZFault: ZFaultFromIoError
    return module, kind + "".join(it[0].upper() + it[1:] for it in re.findall(r"\w+", re.sub(r"'\w+", "", trait[0])))


def end_of(text: str, start: int, indent: str) -> int:
    """Where the text of the function ends whose head starts there: after the line that closes its body."""
    closing = re.compile(rf"(?m)^{indent}(?:\}}|\{{.*\}})$|\A.*\}}$")
    found = closing.search(text[start:])
    return start + found.end() if found else len(text)


def proof_of(folder: str, owner: list[str], name: str, is_method: bool, above: str, body: str) -> str:
    """The folder below proofs/ that has the function's proof: of its own, or of the cycle of calls that it is in."""
    named = re.search(r"#\[cycle\((\w+)\)\]", above)
    calls_itself = re.search(rf"\b(?:self\.|Self::|{owner[-1]}::){name}\(" if is_method else rf"(?<![.:\w]){name}\(", body)
    own = "/".join([*owner, name])
    cycle = "/".join([*owner, f"+{named[1] if named else name}"])
    return cycle if named or calls_itself or os.path.isdir(f"{folder}/proofs/{cycle}") else own


def functions_in(texts: Texts, folder: str) -> list[Function]:
    """The functions of a crate that is in the folder, by the paths that a check gives them."""
    types = {kind: module_of(file) for file, text in texts.items() for kind in TYPE.findall(text)}
    found = []
    for file, text in texts.items():
        end = 0
        for head in HEAD.finditer(text):
            start, above, name = head.start(), text[end : head.start()], head[2]
            owner: tuple[str, ...] = (module_of(file),)
            if head[1]:
                impls = [*IMPL.finditer(text[:start])]
                if not impls or re.search(r"(?m)^}", text[impls[-1].start() : start]):
                    continue
                owner = owner_of(impls[-1][1], types, owner[0])
            end = end_of(text, start, head[1])
            path = "::".join([*owner, name]).removeprefix("::")
            proof = proof_of(folder, path.split("::")[:-1], name, bool(head[1]), above, text[head.end() : end])
            lines = text[:start].count("\n") + 1, text[:end].count("\n") + 1
            found.append(Function(path, proof, file, start, end, *lines, "#[test]" in above))
    return found


def body_of(text: str) -> int | None:
    """Where the body of a function with this text begins, if its braces tell."""
    if re.search(r"['\"][{}]|[{}]['\"]", text):
        return None
    depth = 0
    for place in range(len(text) - 1, -1, -1):
        depth += (text[place] == "}") - (text[place] == "{")
        if depth == 0:
            return place if text[place] == "{" else None
    return None
