"""The words of crates/*/specs that the contract of `top` reaches, by crate and file, and those that it doesn't.

It starts from the contract of `top` and the traits that `top` is generic in, and goes from each word to those in its definition. Words are found
by name, after the `use` lines of each file; a bound variable with the name of a word counts as the word. Types of crates/*/src are no words here.
"""
import re
import textwrap
from pathlib import Path

CRATES = Path(__file__).resolve().parent.parent / "crates"
NAME = r"[^\W\d]\w*(?:-[^\W\d]\w*)*"
DECLARATION = re.compile(r"(?:unfoldable |abbrev )*pub (record |data )?(%s)" % NAME)
USE = re.compile(r"^\s*(?:ghost )?use Rattle\.([\w.]+)(?:\.\{([^}]*)\}| as (\w+))", re.M)


def plain(text):
    """The text without comments and strings."""
    return re.sub(r"(?m)\"(?:[^\"\\\n]|\\.)*\"|(?<!\S)(?:--|//).*$", " ", text)


class File:
    def __init__(self, path):
        text = plain(path.read_text())
        self.module = f"{path.parts[-3]}.specs.{path.stem}"
        self.imports, self.aliases, self.words, self.constructors = {}, {}, {}, {}
        for module, inside, alias in USE.findall(text):
            if alias:
                self.aliases[alias] = module
            for one in inside.split(","):
                there, _, here = one.strip().partition(" as ")
                self.imports[here or there] = (module, there)
        self.add(text)

    def add(self, text):
        """The definitions in the text: each a declaration, and equations that begin with its name."""
        for part in re.split(r"\n(?=[^\s})])", text):
            declared, first = DECLARATION.match(part), re.match(NAME, part)
            if declared:
                self.words[declared[2]] = part
                if declared[1] == "data ":
                    self.constructors.update((one, declared[2]) for one in re.findall(r"\n  (%s) :" % NAME, part))
            elif part.startswith("module "):
                self.add(re.sub(r"(?m)^  ", "", part.partition("\n")[2]))
            elif first and first[0] in self.words:
                self.words[first[0]] += "\n" + part

    def named(self, text):
        """The words that the text names, as pairs of module and name."""
        for word, behind in re.findall(r"(?<![\w.])(%s)(?:\.(%s))?" % (NAME, NAME), text):
            if behind and word in self.aliases:
                yield self.aliases[word], behind
            elif word in self.imports:
                yield self.imports[word]
            else:
                yield self.module, word


def contract_of(path, begins):
    """A source file, and a function's contract, or a trait, in it."""
    text = plain(path.read_text())
    return File(path), re.split(r"\n[{}]", text[text.index(begins):])[0]


def contracts():
    """That of `top`, and the traits of its parameters."""
    top = CRATES / "rep_top/src/program.rt"
    yield contract_of(top, "pub fn top")
    for trait in re.findall(r"\b[A-Z]: (\w+)", top.read_text()):
        for path in CRATES.glob("*/src/*.rt"):
            if f"pub trait {trait} {{" in path.read_text():
                yield contract_of(path, f"pub trait {trait} ")


def reached_from(files, todo):
    reached = set()
    while todo:
        module, word = todo.pop()
        if module not in files:
            continue
        file = files[module]
        word = file.constructors.get(word, word)
        if word in file.words and (module, word) not in reached:
            reached.add((module, word))
            todo += file.named(file.words[word])
    return reached


def print_words(title, files, is_wanted):
    listed = {module: [word for word in file.words if is_wanted(module, word)] for module, file in files.items()}
    print(f"{title}: {sum(map(len, listed.values()))}")
    for module, words in listed.items():
        if words:
            crate, _, file = module.split(".")
            print(textwrap.fill(f"{crate} {file}: {' '.join(words)}", 160, subsequent_indent="    ", break_on_hyphens=False))


def main():
    order = re.findall(r"(?m)^(\w+):", (CRATES.parent / "crates.txt").read_text())
    paths = [path for crate in order for path in sorted(CRATES.glob(f"{crate}/specs/*.antt")) if path.stem != "Lib"]
    files = {file.module: file for file in map(File, paths)}
    reached = reached_from(files, [named for file, contract in contracts() for named in file.named(contract)])
    print_words("Reached by `top`", files, lambda *word: word in reached)
    print()
    print_words("Not reached", files, lambda *word: word not in reached)


main()
