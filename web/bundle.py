"""Puts the JavaScript modules of web/src into one script.

Each module becomes a function that is called once, and an import takes names out of what the function returned:

    const view_dom = (() => { .. return { h, id, fill }; })();

The order is that of the imports, so a module runs after those it imports. Two forms are known, each at the start of a line:

    import { a, b as c } from './file.js';        (it may go over several lines)
    export const a = ..;   export function a() ..   export async function a() ..   export function* a() ..   export class A ..

Anything else that begins with `import` or `export`, an `export` of several names, an exported `let`, a cycle, and a name that the other
module doesn't export stop the build: the page would differ from the modules.
"""
import re
from pathlib import Path

IMPORT = re.compile(r"^import \{([^}]*)\} from '([^']+)';$", re.M)
EXPORT = re.compile(r"^export (?=(?:const|function\*?|async function|class) (\w+))", re.M)
SEVERAL = re.compile(r"^export const \w+ = [\w.'\"]+, \w+ =.*$", re.M)
OTHER = re.compile(r"^(?:import|export)\b.*$", re.M)


class BundleFault(Exception):
    """A form that the bundler doesn't know."""


def names_of(text):
    """The pairs (name in the other module, name here) of an import."""
    for word in filter(None, (it.strip() for it in text.split(","))):
        name, _, own = word.partition(" as ")
        yield name.strip(), (own or name).strip()


class Bundle:
    def __init__(self, root):
        self.root, self.exports, self.parts, self.open = Path(root).resolve(), {}, [], []

    def variable_of(self, path):
        return "module_" + re.sub(r"\W", "_", path.relative_to(self.root).with_suffix("").as_posix())

    def add(self, path):
        """Adds a module after those it imports. Returns the name of its variable."""
        path = path.resolve()
        if path in self.exports:
            return self.variable_of(path)
        if path in self.open:
            raise BundleFault(f"{path.name} imports itself, over {', '.join(it.name for it in self.open)}")
        self.open.append(path)
        text = path.read_text()

        def take(found):
            other = path.parent / found[2]
            variable = self.add(other)
            pairs = list(names_of(found[1]))
            unknown = [name for name, _ in pairs if name not in self.exports[other.resolve()]]
            if unknown:
                raise BundleFault(f"{path.name}: {other.name} doesn't export {', '.join(unknown)}")
            return f"const {{ {', '.join(name if name == own else f'{name}: {own}' for name, own in pairs)} }} = {variable};"

        text = IMPORT.sub(take, text)
        several = SEVERAL.search(text)
        exported = EXPORT.findall(text)
        text = EXPORT.sub("", text)
        other = several or OTHER.search(text)
        if other:
            raise BundleFault(f"{path.name}: {other[0]}")
        self.open.pop()
        self.exports[path] = set(exported)
        self.parts.append(f"const {self.variable_of(path)} = (() => {{\n{text.strip()}\nreturn {{ {', '.join(exported)} }};\n}})();")
        return self.variable_of(path)


def shorten(text):
    """The script without indentation, blank lines and lines of comments. Texts over several lines have none of these in web/src."""
    lines = (line.strip() for line in text.split("\n"))
    return "\n".join(line for line in lines if line and not line.startswith("//"))


def bundle(root, entry):
    """One strict script out of the module `entry` and what it imports."""
    made = Bundle(root)
    made.add(Path(root) / entry)
    # A `</script` in a string would end the element that the script is in.
    return shorten("'use strict';\n" + "\n".join(made.parts)).replace("</script", "<\\/script")
