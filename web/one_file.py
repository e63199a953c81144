#!/usr/bin/env python3
"""one_file.py FOLDER OUT.html: one HTML file, which works from file:, of a folder that has the page, yellowadze1541.mjs and yellowadze1541.wasm.

Each ES module becomes a function that gives what it exports, in the order of the imports; the module of web assembly is in base64. What the page may
run is said by its hash, and it may load nothing at all."""
import base64
import hashlib
import pathlib
import re
import sys

IMPORT = re.compile(r'^import \{ (.*) \} from "\./(\w+)\.mjs";\n', re.M)
EXPORT = re.compile(r"^export (?=(?:async )?(?:function|class|const) (\w+))", re.M)


def in_order(folder, name, done):
    """The modules that a module imports, before it, each once."""
    text = (folder / f"{name}.mjs").read_text(encoding="utf-8")
    for _, other in IMPORT.findall(text):
        if other not in done:
            in_order(folder, other, done)
    done[name] = text
    return done


def exports_of(text):
    """The names that a module exports, also several of one line of constants."""
    names = []
    for line in re.findall(r"^export .*", text, re.M):
        first = EXPORT.match(line)[1]
        rest = re.findall(r", (\w+) = ", line) if line.startswith("export const") and line.endswith(";") and "=>" not in line else []
        names += [first, *rest]
    return names


def as_function(name, text):
    """A module as a function that gives its exports, called at once."""
    names = exports_of(text)
    text = IMPORT.sub(r"const { \1 } = \2_module;\n", text)
    text = EXPORT.sub("", text)
    return f"const {name}_module = (() => {{\n{text}\nreturn {{ {', '.join(names)} }};\n}})();\n"


def allowed(text):
    return f"'sha256-{base64.b64encode(hashlib.sha256(text.encode()).digest()).decode()}'"


def one_file(folder):
    script = "".join(as_function(*it) for it in in_order(folder, "app", {}).items())
    style = (folder / "style.css").read_text(encoding="utf-8")
    page = (folder / "index.html").read_text(encoding="utf-8")
    module = base64.b64encode((folder / "yellowadze1541.wasm").read_bytes()).decode()
    policy = f"default-src 'none'; script-src {allowed(script)} 'wasm-unsafe-eval'; style-src {allowed(style)}; img-src data:; base-uri 'none'; form-action 'none'"
    page = re.sub(r"(Content-Security-Policy\" content=\")[^\"]*", lambda it: it[1] + policy, page)
    page = page.replace('<link rel="stylesheet" href="style.css">', f"<style>{style}</style>")
    page = page.replace('<script type="module" src="app.mjs"></script>\n', "")
    data = f'<script type="application/octet-stream" id="module">{module}</script>\n'
    return page.replace("</body>", f'{data}<script type="module">{script}</script>\n</body>')


def main():
    if len(sys.argv) != 3:
        sys.exit(__doc__)
    pathlib.Path(sys.argv[2]).write_text(one_file(pathlib.Path(sys.argv[1])), encoding="utf-8")


if __name__ == "__main__":
    main()
