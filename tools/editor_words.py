#!/usr/bin/env python3
"""Writes editors/: how Vim and what reads TextMate grammars (VS Code, and others) colour a source, from the words of the lexer.

    tools/editor_words.py            writes the files
    tools/editor_words.py --check    ends with status 1 where one of them is not what would be written
    tools/editor_words.py --try      has Vim colour the kernels of examples/, and compares each word's colour with its group here

The words that the language reserves stand in crates/isp_lex/specs/Spelling.antt, the functions of the library in crates/isp_exprs/specs/Callees.antt.
Each reserved word is in one group of GROUPS below; a word that is in none is a fault.
"""
import glob
import json
import os
import re
import subprocess
import sys
import tempfile

ROOT = os.path.dirname(os.path.dirname(os.path.realpath(__file__)))
FOLDER = "editors"
# a group: its name in Vim, the group of Vim's that it looks like, its scope in TextMate, its words
GROUPS = [
    ("ispcConditional", "Conditional", "keyword.control.conditional", "if cif else"),
    ("ispcRepeat", "Repeat", "keyword.control.loop", "while cwhile do cdo for cfor foreach foreach_tiled foreach_active foreach_unique"),
    ("ispcStatement", "Statement", "keyword.control", "break continue return unmasked print assert"),
    ("ispcRate", "StorageClass", "storage.modifier.rate", "uniform varying"),
    ("ispcQualifier", "StorageClass", "storage.modifier", "const export static inline"),
    ("ispcType", "Type", "storage.type", "void bool int int8 int16 int32 int64 uint uint8 uint16 uint32 uint64 signed unsigned"),
    ("ispcBoolean", "Boolean", "constant.language.boolean", "true false"),
    ("ispcGang", "Constant", "variable.language.gang", "programIndex programCount"),
]
LEFT_OUT = ("ispcLeftOut", "Error", "invalid.illegal.left-out")
LIBRARY = ("ispcFunction", "Function", "support.function")
NUMBER = r"\b(0x[0-9a-fA-F]+|0b[01]+|0|[1-9][0-9]*)([uU]?[lL]{0,2}|[lL]{1,2}[uU])\b"
WRITTEN = "Written by tools/editor_words.py from the words of the lexer."


def stop(why):
    sys.exit(f"editor_words: {why}")


def read(path):
    with open(f"{ROOT}/{path}", encoding="utf-8") as it:
        return it.read()


def coded(text):
    return re.findall(r'codes "(\w+)"', text)


def words():
    """Returns the reserved words in use, those that are left out, and the functions of the library."""
    used, left_out = read("crates/isp_lex/specs/Spelling.antt").split("left_out =")
    library = read("crates/isp_exprs/specs/Callees.antt").split("cross_library =")[1].split("abbrev pub named_in")[0]
    used, grouped = coded(used), [word for group in GROUPS for word in group[3].split()]
    if sorted(used) != sorted(grouped):
        stop(f"GROUPS and the lexer differ by {', '.join(sorted(set(used) ^ set(grouped))) or 'a word that stands twice'}")
    return used, coded(left_out.split("abbrev pub Among")[0]), coded(library)


def vim_syntax(left_out, library):
    lines = [f'" Colours for Intel ISPC sources, as isp compiles them. {WRITTEN}', "if exists('b:current_syntax')", "  finish", "endif", ""]
    groups = [*GROUPS, (*LIBRARY, " ".join(library)), (*LEFT_OUT, " ".join(left_out))]
    lines += [f"syntax keyword {name} {text}" for name, _, _, text in groups]
    lines += [
        r"syntax match ispcNumber /\<\%(0x\x\+\|0b[01]\+\|0\|[1-9]\d*\)\%([uU]\=[lL]\{,2}\|[lL]\{1,2}[uU]\)\>/",
        r"syntax match ispcEscape /\\[nrt\\\"]/ contained",
        "syntax match ispcPlace /%/ contained",
        r'syntax region ispcString start=/"/ skip=/\\./ end=/"/ oneline contains=ispcEscape,ispcPlace',
        "syntax match ispcComment #//.*$# contains=@Spell",
        r"syntax region ispcComment start=#/\*# end=#\*/# contains=@Spell",
        "",
    ]
    looks = [(name, look) for name, look, *_ in groups]
    looks += [("ispcNumber", "Number"), ("ispcEscape", "SpecialChar"), ("ispcPlace", "SpecialChar"), ("ispcString", "String"), ("ispcComment", "Comment")]
    lines += [f"highlight default link {name} {look}" for name, look in looks]
    return "\n".join([*lines, "", "let b:current_syntax = 'ispc'", ""])


def one_of(text):
    return rf"\b({'|'.join(text.split())})\b"


def grammar(left_out, library):
    groups = [*[(scope, text) for _, _, scope, text in GROUPS], (LIBRARY[2], " ".join(library)), (LEFT_OUT[2], " ".join(left_out))]
    rules = [
        {"name": "comment.line.double-slash.ispc", "match": "//.*$"},
        {"name": "comment.block.ispc", "begin": r"/\*", "end": r"\*/"},
        {
            "name": "string.quoted.double.ispc",
            "begin": '"',
            "end": '"',
            "patterns": [
                {"name": "constant.character.escape.ispc", "match": r'\\[nrt\\"]'},
                {"name": "constant.other.placeholder.ispc", "match": "%"},
            ],
        },
        {"name": "constant.numeric.ispc", "match": NUMBER},
        *[{"name": f"{scope}.ispc", "match": one_of(text)} for scope, text in groups],
    ]
    return {"name": "ISPC", "scopeName": "source.ispc", "fileTypes": ["ispc"], "comment": WRITTEN, "patterns": rules}


def extension():
    """Returns what makes an extension of VS Code of the grammar: its manifest, and what an editor knows of brackets and comments."""
    manifest = {
        "name": "isp-ispc",
        "displayName": "ISPC",
        "description": "Colours and a language server for Intel ISPC sources, as isp compiles them",
        "version": "0.3.0",
        "publisher": "puttlinden",
        "license": "Apache-2.0",
        "engines": {"vscode": "^1.82.0"},
        "categories": ["Programming Languages"],
        "main": "./extension.js",
        "activationEvents": ["onLanguage:ispc"],
        "dependencies": {"vscode-languageclient": "^9.0.1"},
        "contributes": {
            "configuration": {
                "title": "ISPC",
                "properties": {
                    "isp.path": {"type": "string", "default": "ispx", "description": "The program `ispx`, whose command `lsp` is the language server"},
                    "isp.gang": {"type": "string", "enum": ["4", "8", "16", "32"], "default": "16", "description": "Instances that run together"},
                },
            },
            "languages": [{"id": "ispc", "aliases": ["ISPC"], "extensions": [".ispc"], "configuration": "./language-configuration.json"}],
            "grammars": [{"language": "ispc", "scopeName": "source.ispc", "path": "./ispc.tmLanguage.json"}],
        },
    }
    pairs = [["{", "}"], ["[", "]"], ["(", ")"]]
    configuration = {
        "comments": {"lineComment": "//", "blockComment": ["/*", "*/"]},
        "brackets": pairs,
        "autoClosingPairs": [*pairs, ['"', '"']],
        "surroundingPairs": [*pairs, ['"', '"']],
    }
    return manifest, configuration


def files():
    _, left_out, library = words()
    manifest, configuration = extension()
    as_text = lambda value: json.dumps(value, indent=2) + "\n"
    return {
        "vim/syntax/ispc.vim": vim_syntax(left_out, library),
        "vim/ftdetect/ispc.vim": f'" {WRITTEN}\nautocmd BufNewFile,BufRead *.ispc setfiletype ispc\n',
        "vim/ftplugin/ispc.vim": f"\" {WRITTEN}\nsetlocal commentstring=//\\ %s comments=s1:/*,mb:*,ex:*/,://\nlet b:undo_ftplugin = 'setlocal commentstring< comments<'\n",
        "vscode/ispc.tmLanguage.json": as_text(grammar(left_out, library)),
        "vscode/package.json": as_text(manifest),
        "vscode/language-configuration.json": as_text(configuration),
    }


# ---- trying them


def group_of():
    _, left_out, library = words()
    found = {word: name for name, _, _, text in GROUPS for word in text.split()}
    found.update({word: LIBRARY[0] for word in library})
    found.update({word: LEFT_OUT[0] for word in left_out})
    return found


def plain(text):
    """Returns a source with blanks for its comments and string literals."""
    return re.sub(r'//[^\n]*|/\*.*?\*/|"(?:\\.|[^"\\])*"', lambda it: re.sub(r"[^\n]", " ", it[0]), text, flags=re.S)


def asked(path):
    """Yields each word of a source outside comments and string literals: its line, its column and the group that it should have."""
    groups = group_of()
    with open(path, encoding="utf-8") as it:
        text = it.read()
    for number, line in enumerate(plain(text).split("\n"), 1):
        for it in re.finditer(r"\w+", line):
            yield number, it.start() + 1, it[0], groups.get(it[0], "ispcNumber" if it[0][0].isdigit() else "")


def coloured(path, places):
    """Returns the groups that Vim gives to places of a file, which it takes for a source by its name alone."""
    with tempfile.TemporaryDirectory() as room:
        script = f"{room}/look.vim"
        with open(script, "w", encoding="utf-8") as it:
            it.write(f"set nocompatible\nset runtimepath^={ROOT}/{FOLDER}/vim\nfiletype plugin on\nsyntax on\nedit {path}\n")
            it.write(f"let found = []\nfor [line, column] in {json.dumps(places)}\n")
            it.write(f"  call add(found, synIDattr(synID(line, column, 1), 'name'))\nendfor\ncall writefile(found, '{room}/found')\nquitall!\n")
        subprocess.run(["vim", "-u", "NONE", "-i", "NONE", "-n", "-es", "-S", script], stdin=subprocess.DEVNULL, check=False, timeout=60)
        with open(f"{room}/found", encoding="utf-8") as it:
            return it.read().split("\n")[:-1]


def scope_at(rules, line, column):
    """Returns the scope that the grammar gives to a word outside comments and string literals: the first of its rules that matches there."""
    for rule in rules:
        if "match" in rule and any(it.start() == column for it in re.finditer(rule["match"], line)):
            return rule["name"]
    return ""


def try_all():
    """Compares the groups by Vim, and the scopes by the grammar, of each word of each kernel, and returns how many differ."""
    scopes = {name: f"{scope}.ispc" for name, _, scope, _ in GROUPS}
    scopes.update({LIBRARY[0]: f"{LIBRARY[2]}.ispc", LEFT_OUT[0]: f"{LEFT_OUT[2]}.ispc", "ispcNumber": "constant.numeric.ispc", "": ""})
    rules = json.loads(read(f"{FOLDER}/vscode/ispc.tmLanguage.json"))["patterns"]
    every, looked_at, differ = " ".join([*group_of(), "0x1F", "0b10", "7ull", "12LU", "name", "int7"]), 0, 0
    with tempfile.NamedTemporaryFile("w", suffix=".ispc", encoding="utf-8") as one:
        one.write(every + "\n")
        one.flush()
        for path in [one.name, *sorted(glob.glob(f"{ROOT}/examples/*.ispc"))]:
            with open(path, encoding="utf-8") as it:
                lines = plain(it.read()).split("\n")
            places = list(asked(path))
            for (line, column, word, group), found in zip(places, coloured(path, [it[:2] for it in places]), strict=True):
                scope = scope_at(rules, lines[line - 1], column - 1)
                looked_at += 1
                if found != group or scope != scopes[group]:
                    differ += 1
                    print(f"{path}:{line}:{column}: {word}: {found or 'no group'}, {scope or 'no scope'}; {group or 'no group'} is expected")
    print(f"{looked_at} words, {differ} differ")
    return 1 if differ or not looked_at else 0


def main(asked_for):
    if asked_for == ["--try"]:
        return try_all()
    if asked_for not in ([], ["--check"]):
        stop("usage: tools/editor_words.py [--check | --try]")
    stale = []
    for name, text in files().items():
        path = f"{FOLDER}/{name}"
        if os.path.isfile(f"{ROOT}/{path}") and read(path) == text:
            continue
        stale.append(path)
        if not asked_for:
            os.makedirs(os.path.dirname(f"{ROOT}/{path}"), exist_ok=True)
            with open(f"{ROOT}/{path}", "w", encoding="utf-8") as it:
                it.write(text)
    for it in stale if asked_for else []:
        print(f"{it} is not what tools/editor_words.py writes")
    return 1 if asked_for and stale else 0


if __name__ == "__main__":
    sys.exit(main(sys.argv[1:]))
