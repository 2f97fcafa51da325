#!/usr/bin/env python3
"""How long the sentences of our pages are, and how many words the pages have.

A page's sentences are those of its paragraphs and list items; of a header those of its comments, and of a Python file those of its
docstrings. Code, tables, headings and the tags of roff's lists don't count, and a piece of inline code is one word.
`tests/gate/prose.py [PAGE..]` prints a line for each page: its words, its sentences, their average length, and the longest one.
`tests/gate/manual.py` fails where a page is past what is allowed here. So it does where a formatter broke the lists of a comment in the
crates: an item goes on without its indentation, or a word stands alone in a line.
"""

import ast
import glob
import inspect
import os
import re
import sys

HERE = os.path.dirname(os.path.dirname(os.path.dirname(os.path.realpath(__file__))))
AVERAGE = 18  # words a sentence, of a page
LONGEST = {"README.md": 25}  # words of its longest sentence
WORDS = {"README.md": 700, "docs": 30000}  # as wc -w counts them


def pages():
    """The pages that people read."""
    found = ["README.md", "CONTRIBUTING.md", "CHANGELOG.md", "SECURITY.md", *glob.glob("docs/*.md", root_dir=HERE),
             "c/opgp.h", "c/opgp.hpp", "python/opgp.py", *glob.glob("python/wheel/*.py", root_dir=HERE), *glob.glob("man/*.[1-9]", root_dir=HERE)]
    return [it for it in sorted(found) if os.path.isfile(f"{HERE}/{it}")]


def paragraphs_of_markdown(text):
    """The paragraphs and list items of a page."""
    text = re.sub(r"^ *(```|~~~).*?^ *\1[^\n]*$", "\n", text, flags=re.M | re.S)
    text = re.sub(r"<!--.*?-->", "", text, flags=re.S)
    text = re.sub(r"(?:(?<=\n\n)|\A)(?: {4}[^\n]*\n|\n)+", "\n", text)
    found = [""]
    for line in text.split("\n"):
        if not line.strip() or re.match(r"\s*(#|\||=+$|-{3,}$|<|!\[)", line):
            found.append("")
        elif it := re.match(r"\s*(?:[-*+]|\d+\.)\s+(.*)", line):
            found.append(it[1])
        else:
            found[-1] += " " + line.strip()
    return [it for it in found if it.strip()]


def paragraphs_of_roff(text):
    """The paragraphs of a manual's page. What stands between .nf and .fi, or .EX and .EE, is code; the line behind .TP is a tag."""
    found, is_code, is_tag = [""], False, False
    for line in text.split("\n"):
        line = re.sub(r"\\f.|\\[&%]", "", line).replace("\\-", "-").replace("\\(aq", "'").replace("\\(lq", '"').replace("\\(rq", '"')
        word = line.split(" ")[0]
        if word in (".nf", ".EX"):
            is_code = True
        elif word in (".fi", ".EE"):
            is_code = False
        elif is_code or is_tag:
            is_tag = False
        elif re.match(r"\.(B|I|BR|IR|RB|RI|BI|IB) ", line):
            found[-1] += " " + words_of_roff(line)
        elif line.startswith((".", "'")):
            found.append("")
            is_tag = word == ".TP"
        else:
            found[-1] += " " + line
    return [it for it in found if len(it.split()) > 3]


def words_of_roff(line):
    """What a request for fonts shows: its arguments in turn in each of its fonts, of .B and .I all in one. What is bold is code."""
    request, arguments = line[1:].split(" ", 1)
    words = [it.strip('"') for it in re.findall(r'"[^"]*"?|[^\s"]+', arguments)]
    words = words if len(request) == 2 else [" ".join(words)]
    return "".join(f"`{it}`" if request[at % len(request)] == "B" else it for at, it in enumerate(words))


def paragraphs_of_c(text):
    """The paragraphs of a header's comments; a list's item is one, and lines that are set in are code."""
    text = "\n\n".join(re.findall(r"/\*(.*?)\*/", text, re.S))
    return paragraphs_of_markdown(re.sub(r"(?m)^ *\* ?", "", text))


def paragraphs_of_python(text):
    """The paragraphs of a Python file's docstrings, of attributes too."""
    found = [it.value.value for it in ast.walk(ast.parse(text)) if isinstance(it, ast.Expr) and isinstance(it.value, ast.Constant)]
    return [part for it in found if isinstance(it, str) for part in paragraphs_of_markdown(inspect.cleandoc(it))]


PARAGRAPHS = {".md": paragraphs_of_markdown, ".h": paragraphs_of_c, ".hpp": paragraphs_of_c, ".py": paragraphs_of_python}


def sentences(path, text):
    """The sentences of a page, each as its words."""
    found = []
    for it in PARAGRAPHS.get(os.path.splitext(path)[1], paragraphs_of_roff)(text):
        it = re.sub(r"!?\[((?:[^\[\]]|\[[^\]]*\])*)\]\([^)]*\)", r"\1", it)
        it = re.sub(r"(`+).*?\1", "code", it)
        for sentence in re.split(r"(?<=[.!?])[)*_\"']*\s+(?=[A-Z0-9\"'(*_]|code)", it):
            words = [word for word in sentence.split() if re.search(r"\w", word)]
            if words:
                found.append(words)
    return found


def broken_comments(text):
    """The numbers of the lines of a source where its documentation's lists or paragraphs are broken."""
    is_code, is_item, before = False, False, ""
    lines = [re.match(r"\s*//[/!] ?(.*)", it) for it in text.split("\n")]
    for number, (line, behind) in enumerate(zip(lines, [*lines[1:], None]), 1):
        said = line[1].rstrip() if line else ""
        is_code ^= said.lstrip().startswith("```")
        if not said or is_code or "```" in said:
            is_item, before = False, ""
            continue
        begins = re.match(r"(?:[-*]|\d+\.) ", said.lstrip())
        is_alone = before and " " not in said.strip() and behind and behind[1].strip() and "```" not in behind[1]
        if (is_item and not begins and not said.startswith(" ")) or (is_alone and not begins and not re.match(r"\s*(?:[-*]|\d+\.) ", behind[1])):
            yield number
        is_item, before = bool(begins) or (is_item and said.startswith(" ")), said


def comments():
    """A complaint for each broken comment of the crates; and how many sources were looked at."""
    sources = sorted(glob.glob("crates/*/src/*.rt", root_dir=HERE))
    found = []
    for path in sources:
        with open(f"{HERE}/{path}", encoding="utf-8") as it:
            found += [f"{path}:{number}: a comment that a formatter broke" for number in broken_comments(it.read())]
    return found, len(sources)


def measured(path):
    """A page's words, and its sentences."""
    with open(f"{HERE}/{path}", encoding="utf-8") as it:
        text = it.read()
    return len(text.split()), sentences(path, text)


def complaints():
    """What is too long, a line each; and how much was measured."""
    found, count, docs = [], 0, 0
    for path in pages():
        words, told = measured(path)
        count += 1
        average = sum(map(len, told)) / max(len(told), 1)
        docs += words if path.startswith("docs/") else 0
        if average > AVERAGE:
            found.append(f"{path}: {average:.1f} words a sentence, past {AVERAGE}")
        longest = max(told, key=len, default=[])
        if len(longest) > LONGEST.get(path, len(longest)):
            found.append(f"{path}: a sentence of {len(longest)} words, past {LONGEST[path]}: {' '.join(longest)[:80]}")
        if words > WORDS.get(path, words):
            found.append(f"{path}: {words} words, past {WORDS[path]}")
    if docs > WORDS["docs"]:
        found.append(f"docs: {docs} words, past {WORDS['docs']}")
    return found, count


def main(names):
    docs = 0
    for path in names or pages():
        words, told = measured(os.path.relpath(os.path.realpath(path), HERE) if os.path.exists(path) else path)
        docs += words if path.startswith("docs/") else 0
        lengths = sorted(map(len, told))
        longest = max(told, key=len, default=[])
        print(f"{path}: {words} words, {len(told)} sentences of {sum(lengths) / max(len(told), 1):.1f}, "
              f"the longest {len(longest)}: {' '.join(longest)[:90]}")
    if not names:
        print(f"docs: {docs} words")


if __name__ == "__main__":
    main(sys.argv[1:])
