"""The rows of a store on the disk: these commands ask no server."""
import os
import pathlib

from .databases import DatabaseRows, database_faults, rows_of
from .rows import NoRow, Unfinished, entry_of, row_name
from .sheets import item_of, sheet_of
from .words import Stop

MOST_LINES = 20


def history(asked, server, folder):
    wanted, next_id, made = set(asked.ids), 0, {}
    for serial, row in enumerate(entries(rows_of(asked.store))):
        edit = row["edit"]
        kind = edit["kind"]
        ids = set(edit.get("ids", [])) | ({edit["id"]} if "id" in edit else set())
        if kind in ("add_sheet", "add_object"):
            prefix = "" if kind == "add_sheet" else "v 20130925 2\n"
            count = len(sheet_of(f"row {serial}", prefix + edit["text"]).items)
            ids = set(range(next_id, next_id + count))
            next_id += count
        if kind == "undo":
            ids = made.get(edit["serial"], set())
        made[serial] = ids
        if not wanted or ids & wanted or kind == "renumber":
            print(serial, row["session"], row["number"], kind, *shown(edit))
    return 0


def entries(rows):
    """The entries of a store up to the first that is not there."""
    for serial in range(rows.count):
        try:
            yield entry_of(rows.data(serial))
        except (FileNotFoundError, Unfinished):
            return
        except NoRow as why:
            raise Stop(f"{rows.path(serial)} is no row: {why}") from None


def shown(edit):
    """What an edit names, in words."""
    if edit["kind"] in ("add_sheet", "add_symbol", "replace_symbol"):
        return [edit["name"]]
    keys = ("serial", "sheet", "id", "dx", "dy", "x", "y", "quarter")
    words = [str(edit[key]) for key in keys if key in edit]
    if "ids" in edit:
        words.insert(0, ",".join(map(str, edit["ids"])))
    if "value" in edit or edit["kind"] == "drop_attr":
        words.append(edit["name"] + ("=" + edit["value"] if "value" in edit else ""))
    if "text" in edit:
        words.append(str(item_of(edit["text"])))
    return words


def backup(asked, server, folder):
    """Copies rows in their order, and none of a store that lacks one."""
    rows, copied = rows_of(asked.store), pathlib.Path(asked.folder)
    if rows.missing:
        raise Stop(
            f"{asked.store} lacks {row_name(rows.missing[0])}, and has rows behind it: nothing was"
            f" copied. `gafd_sync check {asked.store}` tells all"
        )
    copied.mkdir(parents=True, exist_ok=True)
    old = next(at for at in range(rows.count + 1) if not (copied / row_name(at)).exists())
    if old and (copied / row_name(old - 1)).read_bytes() != data_of(rows, old - 1):
        raise Stop(f"{copied} has the rows of another history: take an empty folder")
    count = old
    for serial in range(old, rows.count):
        data = data_of(rows, serial)
        if not data.endswith(b"\n"):
            if serial + 1 < rows.count:
                raise Stop(f"{asked.store}: {row_name(serial)} is cut, and rows are behind it")
            break
        put_row(copied / row_name(serial), data)
        count += 1
    os.sync()
    print(f"{count} rows, of which {count - old} came now")
    return 0


def data_of(rows, serial):
    try:
        return rows.data(serial)
    except NoRow as why:
        raise Stop(f"{rows.path(serial)}: {why}") from None


def put_row(path, data):
    new = path.with_name("." + path.name + ".new")
    new.write_bytes(data)
    os.replace(new, path)


def check(asked, server, folder):
    """Whether a server can serve a store, and go on with it."""
    rows = rows_of(asked.store)
    if isinstance(rows, DatabaseRows):
        faults = list(database_faults(rows, order_faults))
    else:
        faults = [*folder_faults(rows), *row_faults(rows)]
    for fault in faults[:MOST_LINES]:
        print(f"{asked.store}: {fault}")
    if len(faults) > MOST_LINES:
        print(f"{asked.store}: {len(faults) - MOST_LINES} faults more")
    if faults:
        print(
            f"{asked.store}: put a copy of it away, and take what is missing from the backup:"
            ' SERVER.md, "A store that is damaged"'
        )
        return 1
    last = is_last_cut(rows)
    count = rows.count - last
    cut = f"; {row_name(count)} is unfinished and counts as not there" if last else ""
    print(f"{asked.store}: {count} rows, whole and without a gap{cut}; the next has serial {count}")
    return 0


def is_last_cut(rows):
    try:
        return rows.count > 0 and not rows.data(rows.count - 1).endswith(b"\n")
    except NoRow:
        return False


def folder_faults(rows):
    """What is wrong with the folder itself, and with names in it."""
    place, own = rows.store.stat(), os.geteuid()
    if own and place.st_uid != own:
        yield f"belongs to the user {place.st_uid}, and this is the user {own}"
    if not os.access(rows.store, os.R_OK | os.W_OK | os.X_OK):
        yield "this user may not read it and write into it"
    if place.st_mode & 0o022:
        yield f"others may write into it: chmod go-w {rows.store}"
    for name in sorted(os.listdir(rows.store)):
        if name.endswith(".json") and not name.startswith(".") and name != row_name_of(name):
            yield f"{name} is no row, nor any other file of a store"


def row_name_of(name):
    """The name that a row of this number has."""
    digits = name[: -len(".json")]
    return row_name(int(digits)) if digits.isascii() and digits.isdigit() else None


def row_faults(rows):
    """What is wrong with the rows: those that are missing, and then each in its order."""
    owner, missing, last = rows.store.stat().st_uid, set(rows.missing), {}
    for serial in rows.missing:
        yield f"{row_name(serial)} is missing, and {row_name(rows.greatest)} is there"
    for serial in range(rows.count):
        name = row_name(serial)
        if serial in missing:
            continue
        try:
            entry = entry_of(rows.data(serial))
        except Unfinished as why:
            if serial + 1 < rows.count:
                yield f"{name} is cut: {why}, and rows are behind it"
            continue
        except NoRow as why:
            yield f"{name} is no row: {why}"
            continue
        except OSError as error:
            yield f"{name}: {error.strerror}"
            continue
        if rows.path(serial).stat().st_uid != owner:
            yield f"{name} belongs to another user than the folder"
        yield from order_faults(serial, entry, last, not missing)


def order_faults(serial, entry, last, is_counted):
    """What of an entry cannot stand behind those before it; `last` has the numbers by session."""
    session, due = entry["session"], last.get(entry["session"], 0) + 1
    if entry["base"] > serial:
        yield f"{row_name(serial)} has the base {entry['base']}, which is above its serial"
    if is_counted and entry["number"] != due:
        yield (
            f"{row_name(serial)} has the number {entry['number']} of {session}, and {due} was due:"
            " rows of two boards in one folder?"
        )
    last[session] = entry["number"]
