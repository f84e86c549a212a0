# Tells the words of a list that have a reading from those that have none, by their answers. Usage: apart.py LINE-PROGRAM FOLDER
# The folder has grammar.img and words; found and missing are put beside them. Where fewer than 64 words of the list have no
# reading, near-misses are added: words that have one, with a letter changed.
import subprocess
import sys

LEAST = 64


def has_reading(program, folder, words):
    # For each word, whether rows follow the reply to it.
    said = subprocess.run([program], cwd=folder, input="".join(words), capture_output=True, text=True, check=True).stdout
    replies = [line.split(" ")[0] for line in said.splitlines() if "|" not in line]
    if len(replies) != len(words) or not set(replies) <= {"all", "more", "none"}:
        sys.exit(f"apart.py: {folder}: words that are refused or unread")
    return [reply != "none" for reply in replies]


def changed(words):
    # Each word with one letter changed into another that the list has; neighbours differ in the word.
    split = [word.split() for word in dict.fromkeys(words)]
    letters = sorted({letter for word in split for letter in word}, key=int)
    for place in range(32):
        for letter in letters:
            for word in split:
                if place < len(word) and word[place] != letter:
                    yield " ".join(word[:place] + [letter] + word[place + 1 :]) + "\n"


def write(name, words):
    with open(name, "w") as file:
        file.writelines(words)


program, folder = sys.argv[1:]
with open(f"{folder}/words") as file:
    words = file.readlines()
answers = has_reading(program, folder, words)
found = [word for word, answer in zip(words, answers) if answer]
missing = [word for word, answer in zip(words, answers) if not answer]
if not found:
    sys.exit(f"apart.py: {folder}: no word has a reading")
if len(missing) < LEAST:
    near = list(dict.fromkeys(changed(found)))
    others = [word for word, answer in zip(near, has_reading(program, folder, near)) if not answer]
    missing += others[: LEAST - len(missing)]
write(f"{folder}/found", found)
write(f"{folder}/missing", missing)
