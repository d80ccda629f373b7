"""Puts what an editor needs of the languages where it looks for that.

    install.py STACK vim|emacs|code|kate

STACK is the path of the script `stack`. What was installed before is replaced. No other file of the editor is changed, but Kate's lists of servers and of
adapters, to which an entry is added. For Vim and Neovim it is a package, for Emacs one too; for VS Code it is an extension, which its own command installs if
that is there.
"""
import json
import os
import shutil
import subprocess
import sys
import tempfile
import zipfile
from pathlib import Path

from beside import EDITOR
from ends import FAILED, end, tell

VERSION, EXTENSION = "1.0.0", "stack.verified-short-stack"
PACKAGE = '(define-package "stack-modes" "1.0" "The languages of the verified short stack" \'((emacs "28.1")))\n'
AUTOLOADS = '(add-to-list \'load-path (directory-file-name (file-name-directory load-file-name)))\n(require \'stack-modes)\n'
TYPES = """<?xml version="1.0" encoding="utf-8"?>
<Types xmlns="http://schemas.openxmlformats.org/package/2006/content-types">
<Default Extension=".json" ContentType="application/json"/><Default Extension=".js" ContentType="application/javascript"/>
<Default Extension=".vsixmanifest" ContentType="text/xml"/></Types>
"""
MANIFEST = """<?xml version="1.0" encoding="utf-8"?>
<PackageManifest Version="2.0.0" xmlns="http://schemas.microsoft.com/developer/vsx-schema/2011">
<Metadata><Identity Language="en-US" Id="verified-short-stack" Version="1.0.0" Publisher="stack"/>
<DisplayName>The verified short stack</DisplayName><Description>Its languages, and runs at three levels</Description></Metadata>
<Installation><InstallationTarget Id="Microsoft.VisualStudio.Code"/></Installation><Dependencies/>
<Assets><Asset Type="Microsoft.VisualStudio.Code.Manifest" Path="extension/package.json" Addressable="true"/></Assets></PackageManifest>
"""
LANGUAGES = {"gypsy": "Micro-Gypsy", "piton": "Piton", "mini": "Infix", "stackvalues": "Values", "fm9001": "FM9001"}


class Unfit(Exception):
    """What is there can't be added to, with the reason."""


def home(*names, variable=None, instead=()):
    """A folder of a person's: below that of a variable of the environment, if that is set."""
    base = os.environ.get(variable or "")
    return Path(base, *names) if base else Path.home().joinpath(*instead, *names)


def quoted(path, ending):
    """A path as it stands between the quotes of a file with this ending: Vim doubles a quote, and Emacs, Lua and JSON have an escape for it."""
    return path.replace("'", "''") if ending == ".vim" else json.dumps(path, ensure_ascii=False)[1:-1]


def put(source, target, stack):
    """Copies files of this folder, with the path of the script in them, in place of what is there."""
    if target.is_symlink():
        target.unlink()
    elif target.exists():
        shutil.rmtree(target)
    shutil.copytree(source, target)
    for path in (it for it in target.rglob("*") if it.is_file()):
        text = path.read_text(encoding="utf-8")
        if "@STACK@" in text:
            path.write_text(text.replace("@STACK@", quoted(stack, path.suffix)), encoding="utf-8")
    return target


def for_vim(stack):
    own = put(EDITOR / "vim", Path.home() / ".vim/pack/stack/start/stack", stack)
    other = put(EDITOR / "vim", home("nvim/site/pack/stack/start/stack", variable="XDG_DATA_HOME", instead=[".local/share"]), stack)
    print(f"{own}\n{other}")
    print("Vim has colours and :make, and with the package ALE the server. Neovim starts the server by itself: K explains a word, gd goes to its declaration")


def for_emacs(stack):
    folder = home("emacs", variable="XDG_CONFIG_HOME", instead=[".config"])
    folder = (folder if folder.is_dir() and not (Path.home() / ".emacs.d").is_dir() else Path.home() / ".emacs.d") / "elpa/stack-modes-1.0"
    put(EDITOR / "emacs", folder, stack)
    (folder / "stack-modes-pkg.el").write_text(PACKAGE)
    (folder / "stack-modes-autoloads.el").write_text(AUTOLOADS)
    print(f"{folder}\nEmacs has the modes from its next start on. M-x eglot or M-x lsp starts the server, M-x dap-debug or M-x dape the debugger, if these packages are installed")


def for_code(stack):
    """An extension, by the editor's own command if that is there."""
    with tempfile.TemporaryDirectory() as room:
        put(EDITOR / "code", Path(room) / "extension", stack)
        target = Path.home() / f".vscode/extensions/{EXTENSION}-{VERSION}"
        package = Path(room) / "stack.vsix"
        with zipfile.ZipFile(package, "w", zipfile.ZIP_DEFLATED) as made:
            made.writestr("[Content_Types].xml", TYPES)
            made.writestr("extension.vsixmanifest", MANIFEST)
            for path in sorted(it for it in (Path(room) / "extension").rglob("*") if it.is_file()):
                made.write(path, path.relative_to(room))
        command = next(filter(None, map(shutil.which, ("code", "codium", "code-oss"))), None)
        if command:
            return subprocess.run([command, "--install-extension", package, "--force"], check=False).returncode
        put(Path(room) / "extension", target, stack)
        kept = home("stack.vsix", variable="XDG_DATA_HOME", instead=[".local/share"])
        kept.parent.mkdir(parents=True, exist_ok=True)
        shutil.copy(package, kept)
        print(f"{target}\nThere is no command code, so the extension was copied. If VS Code doesn't find it: code --install-extension {kept}")


def for_kate(stack):
    """Colours, and an entry in the lists of language servers and of debug adapters."""
    target = home("org.kde.syntax-highlighting/syntax", variable="XDG_DATA_HOME", instead=[".local/share"])
    target.mkdir(parents=True, exist_ok=True)
    for path in (EDITOR / "kate").glob("*.xml"):
        shutil.copy(path, target)
    config = home(variable="XDG_CONFIG_HOME", instead=[".config"])
    pattern = f"^({'|'.join(LANGUAGES.values())})$"
    server = {"command": [stack, "editor", "server"], "highlightingModeRegex": pattern}
    add(config / "kate/lspclient/settings.json", "servers", "stack", server)
    request = {"command": "launch", "program": "${file}", "values": "${args|list}"}
    run = {"command": [stack, "editor", "adapter"], "supportsSourceRequest": False}
    # Kate 22 looks in the first of these folders, later ones in the second.
    for folder in ("gdbplugin", "debugger"):
        add(config / f"kate/{folder}/dap.json", "dap", "stack", {"url": "", "run": run, "configurations": {"launch": {"request": request}}})
    print(f"{target}\nKate has the colours, and an entry in its lists of language servers and of debuggers.")


def add(path, part, name, entry):
    """Adds an entry to a list of Kate's."""
    path.parent.mkdir(parents=True, exist_ok=True)
    try:
        found = json.loads(path.read_text(encoding="utf-8")) if path.is_file() else {}
        found.setdefault(part, {})[name] = entry
    except (ValueError, AttributeError, TypeError):
        raise Unfit(f"{path} isn't as Kate writes it, and stays as it is") from None
    path.write_text(json.dumps(found, indent=4) + "\n", encoding="utf-8")


INSTALLS = {"vim": for_vim, "emacs": for_emacs, "code": for_code, "kate": for_kate}


def main(stack, name="", *rest):
    if rest or name not in INSTALLS:
        tell(f"wanted is one of {', '.join(INSTALLS)}; editors start server and adapter themselves")
        return 1
    try:
        return INSTALLS[name](str(Path(stack).resolve())) or 0
    except Unfit as unfit:
        tell(str(unfit))
        return FAILED


if __name__ == "__main__":
    end(lambda: main(*sys.argv[1:]))
