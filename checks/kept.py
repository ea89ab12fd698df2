"""Notes of what passed on this machine, and the files that it built, by the sums of all that it was made from: what has not changed need
not be done again. They are in the folder batchdb-gate of the user's cache, a file for each; one that cannot be read counts for nothing."""

import hashlib
import json
import os
import shutil
import tarfile
import tempfile
import time
import zlib

FOLDER = os.path.join(os.environ.get("XDG_CACHE_HOME") or os.path.expanduser("~/.cache"), "batchdb-gate")
# How the name of a note with files ends, and that of one that is being written, or was when its run was killed.
WITH_FILES = ".tar.gz"
BEGUN = ".begun"
# In seconds: notes that nothing asked for in so long are removed, and what was begun so long ago.
UNUSED_MAX = 60 * 24 * 3600
BEGUN_MAX = 24 * 3600
# In bytes: if the notes with files take more together, those that are longest unused go. Those of all crates take some 600 MB.
FILES_MAX = 4 << 30
# How many bytes of a file are read at once.
READ_MAX = 1 << 20


def sum_of(*parts):
    return hashlib.sha256(repr(parts).encode()).hexdigest()


def sum_of_files(*places):
    """The sum of files, and of all files in folders, by their paths there; of a place that is not there too. What is built does not
    count."""
    found = hashlib.sha256()
    for place in places:
        for path in files_in(place):
            with open(path, "rb") as file:
                found.update(repr((os.path.relpath(path, place), os.access(path, os.X_OK), os.fstat(file.fileno()).st_size)).encode())
                for part in iter(lambda: file.read(READ_MAX), b""):
                    found.update(part)
        found.update(b"\n")
    return found.hexdigest()


def files_in(place):
    if os.path.isfile(place):
        yield place
    for at, folders, names in os.walk(place):
        # (what is built of src is in out, beside it)
        built = ("out", "__pycache__") if "src" in folders else ("__pycache__",)
        folders[:] = sorted(it for it in folders if it not in built)
        yield from (f"{at}/{it}" for it in sorted(names))


def recall(key):
    """What was noted under this sum, or None."""
    try:
        with open(f"{FOLDER}/{key}", encoding="utf-8") as file:
            noted = json.load(file)
        os.utime(f"{FOLDER}/{key}")
        return noted["text"] if noted["key"] == key else None
    except (OSError, ValueError, KeyError, TypeError):
        return None


def note(key, text):
    """Notes a text under a sum."""

    def write(file):
        file.write(json.dumps({"key": key, "text": text}).encode())

    write_apart(key, write)


def note_with_files(key, text, folder, names):
    """Notes a text under a sum, with files and folders of a folder, by their names there."""

    def write(file):
        with tempfile.TemporaryDirectory() as room, tarfile.open(fileobj=file, mode="w:gz", compresslevel=1) as archive:
            sums = {name: sum_of_files(f"{folder}/{name}") for name in names}
            with open(f"{room}/note", "w", encoding="utf-8") as noted:
                json.dump({"sum": sum_of(key, text, sums), "text": text, "sums": sums}, noted)
            archive.add(f"{room}/note", "note")
            for name in names:
                archive.add(f"{folder}/{name}", f"files/{name}")

    write_apart(f"{key}{WITH_FILES}", write)


def write_apart(name, write):
    """Makes a file of the cache: it is written apart and then renamed, so that nobody reads half of it; without room there is none."""
    begun = None
    try:
        os.makedirs(FOLDER, 0o700, exist_ok=True)
        with tempfile.NamedTemporaryFile(dir=FOLDER, suffix=BEGUN, delete=False) as file:
            begun = file.name
            write(file)
        os.replace(begun, f"{FOLDER}/{name}")
    except OSError:
        if begun:
            remove(begun)


def put_back(key, folder):
    """Puts the files that were noted under this sum into a folder again. Returns the text, or None if not all of them are as they were."""
    path = f"{FOLDER}/{key}{WITH_FILES}"
    try:
        with tempfile.TemporaryDirectory(dir=folder, prefix="kept-") as apart, tarfile.open(path) as archive:
            # (which Pythons before 3.12 have only in their latest forms)
            archive.extraction_filter = getattr(tarfile, "data_filter", lambda member, _: member)
            archive.extractall(apart)
            with open(f"{apart}/note", encoding="utf-8") as file:
                noted = json.load(file)
            text, sums = noted["text"], noted["sums"]
            if noted["sum"] != sum_of(key, text, sums) or any(sum_of_files(f"{apart}/files/{it}") != sums[it] for it in sums):
                return None
            for name in sums:
                remove(f"{folder}/{name}")
                os.rename(f"{apart}/files/{name}", f"{folder}/{name}")
        os.utime(path)
        return text
    except (OSError, EOFError, ValueError, KeyError, TypeError, AttributeError, tarfile.TarError, zlib.error):
        return None


def remove(path):
    if os.path.isdir(path):
        shutil.rmtree(path)
    elif os.path.exists(path):
        os.remove(path)


def forget_unused():
    """Removes what nothing asked for in long, what killed runs left, and of the notes with files those for which there is no room."""
    room = FILES_MAX
    for age, size, name in sorted(there_are()):
        room -= size if name.endswith(WITH_FILES) else 0
        if age > (BEGUN_MAX if name.endswith(BEGUN) else UNUSED_MAX) or room < 0 and name.endswith(WITH_FILES):
            try:
                remove(f"{FOLDER}/{name}")
            except OSError:
                pass


def there_are():
    """What is noted: the seconds since it was written or asked for, its bytes, its name."""
    for name in os.listdir(FOLDER) if os.path.isdir(FOLDER) else []:
        try:
            found = os.stat(f"{FOLDER}/{name}")
        except OSError:
            continue
        yield time.time() - found.st_mtime, found.st_size, name
