"""Checks of web/bundle.py and web/build."""
import base64
import gzip
import hashlib
import re
import subprocess
from pathlib import Path

from bundle import BundleFault, bundle

# Modules that the bundler must refuse, and what it must say.
REFUSED = {
    "a cycle": ({"a.js": "import { b } from './b.js';\nexport const a = 1;", "b.js": "import { a } from './a.js';\nexport const b = 1;"}, "a.js imports itself"),
    "a name that isn't exported": ({"a.js": "import { c } from './b.js';", "b.js": "export const b = 1;"}, "b.js doesn't export c"),
    "an exported let": ({"a.js": "export let a = 1;"}, "export let a"),
    "an export of several names": ({"a.js": "export const a = 1, b = 2;"}, "export const a = 1, b = 2;"),
    "a default export": ({"a.js": "export default 1;"}, "export default 1;"),
    "an import of everything": ({"a.js": "import * as b from './b.js';", "b.js": "export const b = 1;"}, "import * as b"),
}
# A program of modules, and what it prints: each module runs once, after those it imports, and texts keep their `//`.
MODULES = {
    "app.js": "import { one, two as other } from './sub/one.js';\nimport {\n  Three,\n} from './three.js';\n// A comment.\nconst web = 'https://x';  // kept\nconsole.log(one, other(), new Three().name, web, '</script>');",
    "sub/one.js": "import { Three } from '../three.js';\nexport const one = 1;\nexport function two() { return one + new Three().value; }",
    "three.js": "console.log('three');\nexport class Three { get name() { return 'three'; } get value() { return 1; } }",
}


def write(folder, modules):
    for name, text in modules.items():
        (folder / name).parent.mkdir(parents=True, exist_ok=True)
        (folder / name).write_text(text)


def check_bundle(checks, root, page, room):
    for at, (what, (modules, said)) in enumerate(REFUSED.items()):
        folder = room / f"refused{at}"
        write(folder, modules)
        try:
            found = bundle(folder, "a.js")
        except BundleFault as fault:
            found = str(fault)
        checks.has(f"the bundler refuses {what}", found, said)
    write(room / "modules", MODULES)
    made = bundle(room / "modules", "app.js")
    checks.expect("the script has no `</script`", "</script" not in made)
    node = subprocess.run(["node", "-e", made], capture_output=True, text=True) if subprocess.run(["which", "node"], capture_output=True).returncode == 0 else None
    if node:
        checks.equal("modules run once, in the order of their imports", node.stdout, "three\n1 2 three https://x </script>\n")
    text = page.read_text()
    first, second = room / "first.html", room / "second.html"
    for output in (first, second):
        subprocess.run([root / "web/build", "--module", page, "--output", output], check=True, capture_output=True)
    checks.equal("web/build makes the same bytes twice", first.read_bytes(), second.read_bytes())
    checks.equal("these sources make the page that is tested", hashlib.sha256(first.read_bytes()).hexdigest(), hashlib.sha256(page.read_bytes()).hexdigest())
    checks.expect(f"the page has {len(text.encode())} bytes, at most 1,800,000", len(text.encode()) <= 1_800_000)
    hashed = subprocess.run([root / "web/source-hash"], check=True, capture_output=True, text=True).stdout.strip()
    checks.equal("dist/SOURCE has the hash of these sources", (root / "dist/SOURCE").read_text().strip(), hashed)
    checks.has("the page shows it", text, f"from the sources whose hash is {hashed}")
    covered = (root / "web/source-hash").read_text()
    names = [it for it in re.findall(r"^import .*|^from (\w+) import", (root / "web/build").read_text(), re.M) if it and (root / f"web/{it}.py").exists()]
    checks.expect(f"the hash covers web/build and what it imports: {', '.join(names)}", all(f"web/{it}.py" in covered for it in names) and names)
    checks.has("the licence of three.js is in the page", text, "Copyright (c) 2010-2019 three.js authors", "The MIT License")
    library = gzip.decompress(base64.b64decode(re.search(r'id="library">(.*?)</script>', text, re.S)[1]))
    sources = re.search(r"script-src ([^;]*);", text)[1].split()
    checks.equal("the page's policy allows two scripts by their hashes, and WebAssembly", [re.sub(r"'sha256-.*'", "a hash", it) for it in sources], ["a hash", "a hash", "'wasm-unsafe-eval'"])
    is_library = library.decode() == (root / "web/vendor/three.min.js").read_text().strip()
    checks.expect("one of them is what the page unpacks: web/vendor/three.min.js", is_library and f"'sha256-{base64.b64encode(hashlib.sha256(library).digest()).decode()}'" in sources)
    digest = hashlib.sha256((root / "web/vendor/three.min.js").read_bytes()).hexdigest()
    checks.has("web/vendor/VERSIONS names the versions of the packages and the hash of three.min.js", (root / "web/vendor/VERSIONS").read_text(), "libjs-three 111", "esbuild 0.17", digest)
    checks.expect("nothing in the page's own text loads from a network", not re.search(r'(?:src|href)="https?:', text))
