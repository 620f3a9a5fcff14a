#!/usr/bin/env python3
"""Packages the extension of Visual Studio Code: vsix.py [DEST]

DEST, by default the folder `out` of the repository, gets toml-span-VERSION.vsix: the files of editors/vscode, except
for those that its .vscodeignore names, and the licenses. That needs neither the toolchain nor packages of node. The
time of all files is that of the last commit, or SOURCE_DATE_EPOCH. If REPOSITORY, or the remote `origin`, is a URL
(https), the extension links it, and the pictures of its page are shown from there, as the marketplace requires.

Prints the package with its SHA-256. Status: 0 done, 2 wrong arguments, 3 DEST can't be written.
"""

import fnmatch
import hashlib
import json
import os
import re
import subprocess
import sys
import time
import zipfile
from xml.sax.saxutils import escape, quoteattr

TOP = os.path.dirname(os.path.dirname(os.path.abspath(__file__)))
SOURCE = f"{TOP}/editors/vscode"
TYPES = {"js": "application/javascript", "json": "application/json", "md": "text/markdown", "png": "image/png"}
TYPES |= {"txt": "text/plain", "vsixmanifest": "text/xml"}
SCHEMA = "http://schemas.microsoft.com/developer/vsx-schema/2011"
CODE, SERVICES = "Microsoft.VisualStudio.Code", "Microsoft.VisualStudio.Services"


def git(*arguments):
    """Returns the output of git, or an empty text."""
    command = ["git", "-C", TOP, *arguments]
    return subprocess.run(command, stdout=subprocess.PIPE, stderr=subprocess.DEVNULL, text=True).stdout.strip()


def content(path):
    with open(path, "rb") as file:
        return file.read()


def sources():
    """Returns the files of the extension that are not ignored, by their paths below its folder."""
    ignored = content(f"{SOURCE}/.vscodeignore").decode().split()
    ignored = [re.sub(r"\*\*$", "*", it) for it in ignored]
    found = {}
    for folder, _, names in os.walk(SOURCE):
        for name in names:
            path = os.path.relpath(f"{folder}/{name}", SOURCE)
            if not any(fnmatch.fnmatchcase(path, it) for it in ignored):
                found[path] = content(f"{folder}/{name}")
    return found


def linked(files, url):
    """Adds the repository to package.json, and to the paths of pictures of README.md."""
    manifest = json.loads(files["package.json"])
    manifest |= {"repository": {"type": "git", "url": url}, "bugs": {"url": f"{url}/issues"}}
    files["package.json"] = f"{json.dumps(manifest, indent=2, ensure_ascii=False)}\n".encode()
    raw = f"{url}/raw/HEAD/editors/vscode/".encode()
    files["README.md"] = re.sub(rb"(!\[[^\]]*\]\()(?!https:)", rb"\1" + raw, files["README.md"])


def tag(name, attributes, inner=None):
    words = "".join(f" {key}={quoteattr(value)}" for key, value in attributes.items())
    return f"<{name}{words}/>" if inner is None else f"<{name}{words}>{inner}</{name}>"


def manifest_of(package, url):
    """Returns extension.vsixmanifest, which the marketplace reads."""
    properties = {f"{CODE}.Engine": package["engines"]["vscode"], f"{CODE}.ExtensionKind": "workspace"}
    properties |= {f"{SERVICES}.GitHubFlavoredMarkdown": "true"}
    properties |= {f"{SERVICES}.Branding.{key.title()}": value for key, value in package["galleryBanner"].items()}
    if url:
        properties |= {f"{SERVICES}.Links.{it}": url for it in ("Source", "Getstarted", "GitHub")}
    icon = f"extension/{package['icon']}"
    assets = {f"{CODE}.Manifest": "extension/package.json", f"{SERVICES}.Content.Details": "extension/README.md"}
    assets |= {f"{SERVICES}.Content.Changelog": "extension/CHANGELOG.md"}
    assets |= {f"{SERVICES}.Content.License": "extension/LICENSE.txt", f"{SERVICES}.Icons.Default": icon}
    assets = [tag("Asset", {"Type": it, "Path": assets[it], "Addressable": "true"}) for it in assets]
    names = {"Language": "en-US", "Id": package["name"], "Version": package["version"]}
    metadata = [
        tag("Identity", names | {"Publisher": package["publisher"]}),
        tag("DisplayName", {}, escape(package["displayName"])),
        tag("Description", {"xml:space": "preserve"}, escape(package["description"])),
        tag("Tags", {}, escape(",".join(package["keywords"]))),
        tag("Categories", {}, escape(",".join(package["categories"]))),
        tag("GalleryFlags", {}, "Public"),
        tag("Properties", {}, "\n".join(tag("Property", {"Id": it, "Value": properties[it]}) for it in properties)),
        tag("License", {}, "extension/LICENSE.txt"),
        tag("Icon", {}, icon),
    ]
    parts = [
        tag("Metadata", {}, "\n".join(metadata)),
        tag("Installation", {}, tag("InstallationTarget", {"Id": CODE})),
        tag("Dependencies", {}),
        tag("Assets", {}, "\n".join(assets)),
    ]
    root = tag("PackageManifest", {"Version": "2.0.0", "xmlns": SCHEMA}, "\n".join(parts))
    return f'<?xml version="1.0" encoding="utf-8"?>\n{root}\n'


def types():
    """Returns [Content_Types].xml, which a package of this kind must have."""
    all_types = "".join(tag("Default", {"Extension": f".{it}", "ContentType": TYPES[it]}) for it in TYPES)
    root = tag("Types", {"xmlns": "http://schemas.openxmlformats.org/package/2006/content-types"}, all_types)
    return f'<?xml version="1.0" encoding="utf-8"?>\n{root}\n'


def main():
    if len(sys.argv) > 2 or sys.argv[1:2] and sys.argv[1].startswith("-"):
        print("vsix.py: usage: python3 scripts/vsix.py [DEST]", file=sys.stderr)
        return 2
    destination = os.path.abspath(sys.argv[1] if len(sys.argv) > 1 else f"{TOP}/out")
    url = os.environ.get("REPOSITORY", git("remote", "get-url", "origin"))
    url = re.sub(r"(\.git)?/*$", "", url) if url.startswith("https://") else ""
    seconds = int(os.environ.get("SOURCE_DATE_EPOCH") or git("log", "-1", "--format=%ct") or 315532800)
    files = sources()
    if url:
        linked(files, url)
    package = json.loads(files["package.json"])
    licenses = [content(f"{TOP}/{it}") for it in ("LICENSE-MIT", "LICENSE-APACHE")]
    files["LICENSE.txt"] = f"{package['license']}: the licenses follow.\n\n".encode() + b"\n".join(licenses)
    files = {f"extension/{path}": data for path, data in files.items()}
    files |= {"extension.vsixmanifest": manifest_of(package, url).encode(), "[Content_Types].xml": types().encode()}
    path = f"{destination}/{package['name']}-{package['version']}.vsix"
    try:
        os.makedirs(destination, exist_ok=True)
        with zipfile.ZipFile(f"{path}.new", "w", zipfile.ZIP_DEFLATED, compresslevel=9) as out:
            for name in sorted(files):
                entry = zipfile.ZipInfo(name, time.gmtime(max(seconds, 315532800))[:6])
                entry.external_attr = 0o100644 << 16
                out.writestr(entry, files[name], zipfile.ZIP_DEFLATED)
        os.replace(f"{path}.new", path)
    except OSError as error:
        print(f"vsix.py: {destination!r} can't be written: {error.strerror}", file=sys.stderr)
        return 3
    print(f"{hashlib.sha256(content(path)).hexdigest()}  {path}")
    return 0


sys.exit(main())
