#!/usr/bin/env python3
"""Makes what is installed: `./wireline package` runs it, over the proved program.

usage: package.py proved|elsewhere PROGRAM FOLDER    writes FOLDER/wireline-VERSION.tar.gz and FOLDER/wireline_VERSION_amd64.deb, and a sum beside each; PROOF
                                                     says whether the program is the proved one of these sources
       package.py man PROGRAM                        writes the man page to standard output

Both have the same files below one prefix: the program, the command `wireline`, the man page, completions, examples with their reports, the pages of 'use
it' as one HTML file, and PROOF. Beside the proved program they also have the library for C with its header, if tools/c_library.py made it of these sources;
beside a program that was built elsewhere, the library of the folder that WIRELINE_LIBRARY names.
The same sources and program give the same bytes: names are sorted, times are those of the commit, owners are root.
It takes git, dpkg-deb, gzip and cmark-gfm (Debian's packages of these names).
"""
import base64
import gzip
import hashlib
import html
import io
import os
import re
import shutil
import subprocess
import sys
import tarfile
import tempfile

TOP = os.path.dirname(os.path.dirname(os.path.realpath(__file__)))
NAME = "wireline"
SUMMARY = "simulates CAN 2.0 buses by time quanta, and judges them"
ABOUT = """Wireline simulates CAN 2.0 buses at the level of time quanta, and says whether
segment settings, oscillators and cable let a bus work, and with how much to
spare. A plan in TOML goes in; reports, margins and pages come out. The file
PROOF in its documentation says what is proved of the program."""
MAINTAINER = "Wireline maintainers <maintainers@users.noreply.rintsovaky.example>"


def text_of(path):
    with open(path, encoding="utf-8") as it: return it.read()


def said(*words, folder=TOP):
    return subprocess.run(words, cwd=folder, check=True, stdout=subprocess.PIPE).stdout.decode()


def help_of(program, *words):
    """Returns the program's help: it writes that to standard error, with status 2."""
    ran = subprocess.run([program, *words, "--help"], stdin=subprocess.DEVNULL, stderr=subprocess.PIPE, check=False)
    return ran.stderr.decode()


def version_of(program):
    ran = subprocess.run([program, "--version"], stdin=subprocess.DEVNULL, stderr=subprocess.PIPE, check=False)
    return ran.stderr.decode().split()[-1]


# ---- The man page, from the program's table of commands

def roff(text):
    """Returns a text as roff shows it letter for letter."""
    lines = text.replace("\\", "\\e").replace("-", "\\-").replace("'", "\\(aq").splitlines()
    return "\n".join("\\&" + it if it.startswith((".", "\\(aq")) else it for it in lines)


def commands_of(text):
    block = re.search(r"(?ms)^Commands:\n(.*?)\n\n", text).group(1)
    return [tuple(it.split(None, 1)) for it in block.splitlines()]


def described(text):
    """Yields a command's words and options: each with what it does."""
    for head in "Arguments", "Options":
        block = re.search(rf"(?ms)^{head}:\n(.*?)(?:\n\n(?=[A-Z])|\Z)", text)
        if not block: continue
        for entry in re.split(r"\n(?= {2,6}[-\[<])", block.group(1).rstrip()):
            word, _, rest = entry.strip().partition("\n" if "\n" in entry.strip().split("  ")[0] else "  ")
            if word != "-h, --help": yield word, " ".join(rest.split())


def man(program):
    top, version = help_of(program), version_of(program)
    out = [f'.TH WIRELINE 1 "" "wireline {version}" "User Commands"', ".SH NAME", f"wireline \\- {roff(SUMMARY)}", ".SH SYNOPSIS",
           ".B wireline", "\\fICOMMAND\\fR [\\fIOPTION\\fR...] [\\fIFILE\\fR]", ".SH DESCRIPTION", roff(ABOUT), ".PP",
           "Without a file a command reads standard input. With \\fB\\-o\\fR \\fIFILE\\fR it writes to a file, which changes only once the output is whole. "
           "A refused input gives a line that begins with \\(oqfault\\(cq, and a hint that says what to change.", ".SH COMMANDS"]
    for name, does in commands_of(top):
        if name == "help": continue
        own = help_of(program, name)
        usage = re.search(r"(?m)^Usage: \S+ (.*)$", own).group(1)
        out += [".SS " + roff(name), roff(does) + ".", ".PP", f"\\fBwireline\\fR {roff(usage)}"]
        for word, what in described(own):
            out += [".TP", f".B {roff(word)}", roff(what) or "\\&"]
    out += [".SS test\\-install", "Runs each example that is installed, and compares its report with the stored one.",
            ".SH EXIT STATUS", ".TP", ".B 0", "The output is written; of help, too.", ".TP", ".B 1",
            "The input is refused, or of commands that say so the bus doesn\\(aqt work.", ".TP", ".B 2", "The words on the command line, or the plan, are refused.",
            ".TP", ".B 3", "Reading, writing or memory failed.", ".TP", ".B 4", "Of judge: it isn\\(aqt known whether the bus works.", ".SH FILES", ".TP", f".I /usr/share/{NAME}/examples", "Plans with their reports.",
            ".TP", f".I /usr/share/doc/{NAME}/PROOF", "What is proved of this program, and by what.", ".TP", f".I /usr/share/doc/{NAME}/use.html",
            "The pages for users."]
    return "\n".join(out) + "\n"


# ---- The pages for users, as one file

def pages():
    """Returns the pages of 'use it', in the order of docs/README.md, as paths below the top."""
    block = text_of(f"{TOP}/docs/README.md").split("## Use it")[1].split("\n## ")[0]
    found = [os.path.normpath(f"docs/{it}") for it in re.findall(r"\]\(([^)]+\.md)\)", block)]
    return list(dict.fromkeys(found))


def slug(title):
    """Returns the anchor of a heading, as GitHub makes it."""
    return re.sub(r"[^\w\- ]", "", re.sub(r"<[^>]*>", "", title).lower()).replace(" ", "-")


def page_id(path):
    return re.sub(r"\W", "-", os.path.splitext(path)[0].removeprefix("docs/").removeprefix("use/")).lower()


def as_html(path, known):
    """Returns a page's HTML: headings have anchors of their page, links to other pages that are here lead to these, and pictures are part of it."""
    body = said("cmark-gfm", "-e", "table", "-e", "strikethrough", f"{TOP}/{path}")
    own = page_id(path)
    body = re.sub(r"<h(\d)>(.*?)</h\1>", lambda it: f'<h{it[1]} id="{own}--{slug(html.unescape(it[2]))}">{it[2]}</h{it[1]}>', body)

    def link(found):
        to, words = html.unescape(found[1]), found[2]
        if re.match(r"\w+:", to): return found[0]
        file, _, part = to.partition("#")
        file = os.path.normpath(os.path.join(os.path.dirname(path), file)) if file else path
        if file not in known: return words
        return f'<a href="#{page_id(file)}{f"--{part}" if part else ""}">{words}</a>'

    def picture(found):
        file = os.path.normpath(os.path.join(os.path.dirname(path), html.unescape(found[1])))
        kind = "svg+xml" if file.endswith(".svg") else "png"
        with open(f"{TOP}/{file}", "rb") as it: data = base64.b64encode(it.read()).decode()
        return f'<img src="data:image/{kind};base64,{data}"'

    body = re.sub(r'(?s)<a href="([^"]*)">(.*?)</a>', link, body)
    body = re.sub(r'<img src="([^"]*)"', picture, body)
    return f'<section id="{own}">\n{body}</section>\n'


STYLE = """body{max-width:60rem;margin:2rem auto;padding:0 1rem;font:16px/1.5 sans-serif;color:#1b1b1b;background:#fff}pre{overflow-x:auto;padding:.6rem;background:#f3f3f3}
code{font-size:.92em}table{border-collapse:collapse;display:block;overflow-x:auto}td,th{border:1px solid #bbb;padding:.2rem .5rem;vertical-align:top;text-align:left}
img{max-width:100%}section{border-top:2px solid #888;margin-top:3rem}@media(prefers-color-scheme:dark){body{color:#ddd;background:#161616}pre{background:#262626}a{color:#8ab4f8}}"""


def use_html(version):
    known = pages()
    index = "".join(f'<li><a href="#{page_id(it)}">{html.escape(text_of(f"{TOP}/{it}").splitlines()[0].lstrip("# "))}</a></li>\n' for it in known)
    body = "".join(as_html(it, known) for it in known)
    return (f'<!doctype html>\n<html lang="en"><head><meta charset="utf-8"><meta name="viewport" content="width=device-width">\n<title>Wireline {version}</title>\n'
            f"<style>{STYLE}</style></head><body>\n<h1>Wireline {version}</h1>\n<ul>\n{index}</ul>\n{body}</body></html>\n")


# ---- What is proved

LIBRARY = [("libwireline.a", "lib"), ("libwireline.so", "lib"), ("wireline.h", "include")]


def sum_of(file):
    with open(file, "rb") as it: return hashlib.sha256(it.read()).hexdigest()


def library_folder(sources, is_proved):
    """Returns where the library for C is: the proved one if it was made of these sources, beside another program the one that is named; else None."""
    if not is_proved: return os.environ.get("WIRELINE_LIBRARY")
    folder = f"{TOP}/out/c"
    note = f"{folder}/library.sum"
    return folder if os.path.isfile(note) and text_of(note).strip() == sources else None


def proof(program, version, is_proved):
    """Returns the text of PROOF. A program that was built elsewhere may be a proved one, but nothing here knows it."""
    own, sources = sum_of(program), said("./wireline", "sum").strip()
    kit = said("rt", "version").strip() if shutil.which("rt") else "not on the path where this was packed"
    claims = re.findall(r"(?ms)^## (.*?)\n\n(.*?)\n\n", text_of(f"{TOP}/docs/proof/claims.md"))
    unlinked = [(title, re.sub(r" *\(\[[^]]*\]\(.*", "", " ".join(text.split()))) for title, text in claims]
    claims = "\n".join(f"- {title}. {text}" for title, text in unlinked)
    head = (f"Wireline {version}\n\ncommit    {said('git', 'rev-parse', 'HEAD').strip()}\nkit       {kit}\nsources   sha256 {sources} (./wireline sum)\n"
            f"program   sha256 {own}\n")
    folder = library_folder(sources, is_proved)
    head += "".join(f"library   sha256 {sum_of(f'{folder}/{name}')} {name}\n" for name, _ in LIBRARY if folder) + "\n"
    if not is_proved: return head + "The program was built elsewhere, and was not made from these sources here: nothing is said of a proof of it.\n"
    return (f"{head}Each function of the program is proved to meet its contract, by the kit that is named above. The promises are:\n\n{claims}\n\n"
            "What is only tested, and what is trusted (the kit, the C library, the machine), is said in the pages on proof of the sources.\n")


# ---- Files, tarball, Debian package

WRAPPER = """#!/usr/bin/env bash
# Wireline as it is installed: hands its words to the program beside it.
set -euo pipefail
self=$(readlink -f -- "${BASH_SOURCE[0]}")
prefix=${self%/bin/*}
program=$prefix/lib/wireline/wl_sim share=$prefix/share/wireline
. "$share/front.sh"
case ${1-} in
  test-install) exec "$share/test-install" "$program" "$share/examples" "$prefix/share/doc/wireline/PROOF" ;;
  completions)
    [ ! -f "$share/completions.${2-}" ] || exec cat "$share/completions.$2"
    say 'for bash, zsh or fish?'
    exit 2
    ;;
esac
hand_over "$program" "$@"
"""

TEST = """#!/usr/bin/env bash
# Runs each installed example, and compares its report with the stored one; and the program with its sum in PROOF.
# usage: test-install PROGRAM EXAMPLES PROOF
set -uo pipefail
passed=0 failed=0
is() { if "${@:2}" > /dev/null 2>&1; then passed=$((passed + 1)); else failed=$((failed + 1)) && echo "differs: $1"; fi; }
same() { "$1" "$2" < "$3" 2> /dev/null | cmp -s - "$4"; }
for plan in "$2"/*.toml; do
  for stored in "${plan%.toml}".{report,traffic,vcd}; do
    [ -f "$stored" ] || continue
    command=${stored##*.}
    is "$stored" same "$1" "${command/report/run}" "$plan" "$stored"
  done
done
is "the program is not the one of PROOF" grep -q "^program   sha256 $(sha256sum < "$1" | cut -d' ' -f1)$" "$3"
echo "$passed passed, $failed failed"
[ "$failed" = 0 ] && [ "$passed" -gt 1 ]
"""


def squeezed(data):
    held = io.BytesIO()
    with gzip.GzipFile(fileobj=held, mode="wb", compresslevel=9, mtime=0) as it: it.write(data)
    return held.getvalue()


def stage(program, version, root, is_proved):
    """Writes all files below `root`, as below a prefix."""
    def put(path, data, mode=0o644):
        file = f"{root}/{path}"
        os.makedirs(os.path.dirname(file), exist_ok=True)
        with open(file, "wb") as it: it.write(data if isinstance(data, bytes) else data.encode())
        os.chmod(file, mode)

    with open(program, "rb") as it: put("lib/wireline/wl_sim", it.read(), 0o755)
    put("bin/wireline", WRAPPER, 0o755)
    put("share/wireline/front.sh", text_of(f"{TOP}/tools/front.sh"))
    put("share/wireline/test-install", TEST, 0o755)
    for shell, place in ("bash", "bash-completion/completions/wireline"), ("zsh", "zsh/vendor-completions/_wireline"), ("fish", "fish/vendor_completions.d/wireline.fish"):
        text = text_of(f"{TOP}/tools/completions.{shell}")
        put(f"share/wireline/completions.{shell}", text)
        put(f"share/{place}", text)
    put("share/man/man1/wireline.1.gz", squeezed(man(program).encode()))
    put("share/doc/wireline/use.html", use_html(version))
    put("share/doc/wireline/PROOF", proof(program, version, is_proved))
    folder = library_folder(said("./wireline", "sum").strip(), is_proved)
    for name, place in LIBRARY if folder else []:
        with open(f"{folder}/{name}", "rb") as it: put(f"{place}/{name}", it.read())
    if not folder: print("left out: the library for C, which `tools/c_library.py out/c` makes beside the proved program")
    for file in said("git", "ls-files", "examples").split("\n"):
        if file:
            with open(f"{TOP}/{file}", "rb") as it: put(f"share/wireline/{file}", it.read())


def files_below(root):
    return sorted(os.path.relpath(f"{at}/{name}", root) for at, folders, names in os.walk(root) for name in [*folders, *names])


def tarball(root, version, when, to):
    held = io.BytesIO()
    with tarfile.open(fileobj=held, mode="w", format=tarfile.USTAR_FORMAT) as tar:
        for path in ["", *files_below(root)]:
            it = tar.gettarinfo(f"{root}/{path}", f"{NAME}-{version}/{path}".rstrip("/"))
            it.uid = it.gid = 0
            it.uname = it.gname = "root"
            it.mtime = when
            it.mode = 0o755 if it.isdir() else it.mode
            if it.isfile():
                with open(f"{root}/{path}", "rb") as data: tar.addfile(it, data)
            else: tar.addfile(it)
    with open(to, "wb") as it: it.write(squeezed(held.getvalue()))


def debian(root, version, when, to, program):
    with tempfile.TemporaryDirectory() as room:
        shutil.copytree(root, f"{room}/usr")
        size = sum(os.lstat(f"{room}/{it}").st_size for it in files_below(room)) // 1024
        libc = max(re.findall(r"GLIBC_([\d.]+)", said("objdump", "-T", program)), key=lambda it: [int(n) for n in it.split(".")], default="2.34")
        os.makedirs(f"{room}/DEBIAN")
        about = "\n".join(" " + it for it in ABOUT.splitlines())
        with open(f"{room}/DEBIAN/control", "w", encoding="utf-8") as it:
            it.write(f"Package: {NAME}\nVersion: {version}\nArchitecture: amd64\nMaintainer: {MAINTAINER}\nInstalled-Size: {size}\n"
                     f"Depends: libc6 (>= {libc}), libgcc-s1, bash\nSection: electronics\nPriority: optional\nDescription: {SUMMARY}\n{about}\n")
        for it in ["", *files_below(room)]:
            file = f"{room}/{it}"
            if os.path.isdir(file): os.chmod(file, 0o755)
            os.utime(file, (when, when))
        known = {**os.environ, "SOURCE_DATE_EPOCH": str(when)}
        subprocess.run(["dpkg-deb", "--root-owner-group", "-Zxz", "--build", room, to], env=known, check=True, stdout=subprocess.DEVNULL)


def package(program, folder, is_proved):
    lacking = [it for it in ("git", "dpkg-deb", "cmark-gfm", "objdump") if not shutil.which(it)]
    if lacking: sys.exit(f"package.py: not on the path: {', '.join(lacking)} (apt-get install git dpkg cmark-gfm binutils)")
    version, when = version_of(program), int(said("git", "log", "-1", "--format=%ct"))
    os.makedirs(folder, exist_ok=True)
    with tempfile.TemporaryDirectory() as room:
        stage(program, version, f"{room}/all", is_proved)
        made = [f"{folder}/{NAME}-{version}.tar.gz", f"{folder}/{NAME}_{version}_amd64.deb"]
        tarball(f"{room}/all", version, when, made[0])
        debian(f"{room}/all", version, when, made[1], program)
    for file in made:
        with open(file, "rb") as it: data = it.read()
        with open(f"{file}.sha256", "w", encoding="utf-8") as it: it.write(f"{hashlib.sha256(data).hexdigest()}  {os.path.basename(file)}\n")
        print(f"{file}: {len(data)} bytes")


def main(words):
    if len(words) == 2 and words[0] == "man": sys.stdout.write(man(os.path.abspath(words[1])))
    elif len(words) == 3 and words[0] in ("proved", "elsewhere"): package(os.path.abspath(words[1]), os.path.abspath(words[2]), words[0] == "proved")
    else: sys.exit(sys.stderr.write(__doc__) and 2)


if __name__ == "__main__":
    main(sys.argv[1:])
