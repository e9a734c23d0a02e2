"""What a message of mic usually means: messages.json has the tables of the documents, as scripts/messages takes them from there,
and sentences.json the sentences that name lines, locals and methods."""
import functools
import json
import os
import re

HERE = os.path.dirname(os.path.realpath(__file__))
DOCUMENTS = {"ijvm": "ijvm.md", "mal": "microassembly.md", "tiny": "tiny.md"}
HEADING = "### What a message usually means"


@functools.lru_cache(None)
def data_of(name):
    with open(os.path.join(HERE, name), encoding="utf-8") as file:
        return json.load(file)


def sentences():
    return data_of("sentences.json")


def filled(sentence, **places):
    """A sentence with its places filled."""
    return re.sub(r"\{(\w+)\}", lambda found: str(places.get(found[1], found[0])), sentence)


def in_words(text, **places):
    """The sentence for a message of the verifier, or the message itself."""
    for row in sentences()["verifier"]:
        if found := re.search(row["pattern"], text):
            return filled(row["words"], **{str(number): value for number, value in enumerate(found.groups(), 1)}, **places)
    return text


def advice_for(language, text, line, row):
    """What to look for, in the order of the document: `row` is the refused line."""
    first, others = [], []
    for entry in data_of("messages.json")[language]:
        if not re.search(entry["pattern"], text):
            continue
        if entry["on"] == "line 1":
            if line == 1:
                others.append(entry["advice"])
        elif not entry["on"] or entry["on"] in kinds_of(row):
            first.append(entry["advice"])
    return list(dict.fromkeys(first + others))


def kinds_of(row):
    """What a line of a source may be. A name alone is a label without its colon, or an instruction that does not exist."""
    row = row.split("//")[0].strip()
    if row.startswith("."):
        return ["section"]
    if re.fullmatch(r"[A-Za-z_]\w*\s*:", row):
        return ["label"]
    return ["instruction", "label"] if re.fullmatch(r"[A-Za-z_]\w*", row) else ["instruction"]


# ---- the tables of the documents


def rows_of(text):
    """The rows of a document's table "What a message usually means"."""
    table = text[text.index(HEADING) :].split("\n\n")[1]
    for line in table.splitlines()[2:]:
        key, advice = (part.strip().replace("\\|", "|") for part in re.split(r"(?<!\\)\|", line)[1:3])
        place = re.search(r"\bon (?:a|an) (\w+)|\bin (line 1)\b", key)
        rest = "" if place else re.sub(r"`[^`]*`|,", "", key).strip()
        advice = (f"{rest}: " if rest else "") + advice.removesuffix("; see above")
        for message in re.findall(r"`([^`]+)`", key):
            pattern = re.sub(r"(?<!\w)-?\d+", "-?[0-9]+", re.escape(message).replace("\\ ", " ").replace("\\-", "-"))
            yield {"message": message, "pattern": f"^{pattern}$", "on": (place[1] or place[2]) if place else "", "advice": advice}


def tables(docs):
    """What messages.json holds, from the documents in the folder `docs`."""
    found = {}
    for language, name in DOCUMENTS.items():
        with open(os.path.join(docs, name), encoding="utf-8") as file:
            found[language] = list(rows_of(file.read()))
    return found


def as_text(found):
    """The tables as the file has them: a row a line."""
    parts = [f'"{language}": [\n' + ",\n".join(json.dumps(row, ensure_ascii=False) for row in rows) + "\n]" for language, rows in found.items()]
    return "{\n" + ",\n".join(parts) + "\n}\n"
