"""Parts that are damaged, half copied, of another table or of another name, and two loads of one name."""

import os

from parts import count, make_folder, name_of, parts_of

DAMAGED = "its bytes are not those of its name: copy it again, or remove it"
READERS = (("check", "d"), ("query", "d", "SELECT COUNT(*) FROM T"), ("dump", "d"), ("inspect", "d"), ("summary", "d"), ("delete", "d", "A = 1"), ("merge", "m", "d"), ("pack", "--all", "d"), ("forget", "d"))


def a_flipped_bit_is_seen_by_each_command_and_named(room):
    make_folder(room, loads=3)
    part = max(parts_of(room), key=lambda name: os.path.getsize(room.path("d/" + name)))
    data = room.get("d/" + part)
    for at in (len(data) - 9, len(data) // 2):
        room.put("d/" + part, data[:at] + bytes([data[at] ^ 4]) + data[at + 1 :])
        for words in READERS:
            room.refused(*words, line="refused Damaged", sentence=f"d/{part}: {DAMAGED}")
        assert not os.path.exists(room.path("m"))
    # An import reads the heads alone, and compares the smallest part with its name.
    room.ok("import", "--no-header", "d", "-", given=b"1,1\n")
    room.put("d/" + part, data)
    assert count(room) == 7


def a_damaged_smallest_part_is_seen_by_an_import(room):
    make_folder(room, loads=3)
    part = min(parts_of(room), key=lambda name: (os.path.getsize(room.path("d/" + name)), name))
    room.put("d/" + part, room.get("d/" + part) + b"x")
    room.refused("import", "--no-header", "d", "-", given=b"1,1\n", line="refused Damaged", sentence=f"d/{part}: {DAMAGED}")
    room.refused("delete-rows", "d", "1.1", "0", "0", line="refused Damaged")


def a_smallest_part_that_is_no_file_behind_its_head_is_for_the_next_reader(room):
    make_folder(room, loads=3)
    part = min(parts_of(room), key=lambda name: (os.path.getsize(room.path("d/" + name)), name))
    data = room.get("d/" + part) + b"x"
    os.remove(room.path("d/" + part))
    room.put("d/" + name_of(data), data)
    room.ok("import", "--no-header", "d", "-", given=b"1,1\n")
    room.ok("delete-rows", "d", "1.1", "0", "0")
    room.refused("check", "d", line=f"refused TrailingBytes {len(data) - 1}")


def half_a_part_and_an_empty_one_are_damaged(room):
    make_folder(room, loads=3)
    part = parts_of(room)[0]
    data = room.get("d/" + part)
    for kept in (0, 1, len(data) // 2, len(data) - 1):
        room.put("d/" + part, data[:kept])
        for words in READERS:
            room.refused(*words, line="refused Damaged", sentence=f"d/{part}: {DAMAGED}")
    os.remove(room.path("d/" + part))
    room.ok("check", "d")


def a_part_that_is_there_and_damaged_is_not_taken_for_the_new_one(room):
    make_folder(room)
    room.ok("delete-rows", "d", "5.5", "1", "2")
    part = max(parts_of(room), key=lambda name: os.stat(room.path("d/" + name)).st_mtime_ns)
    data = room.get("d/" + part)
    room.put("d/" + part, data + b"x")
    room.refused("delete-rows", "d", "5.5", "1", "2", line="refused Damaged", sentence=f"d/{part}: {DAMAGED}")
    room.put("d/" + part, data)
    room.ok("delete-rows", "d", "5.5", "1", "2")
    assert sorted(os.listdir(room.path("d"))) == parts_of(room)


def bytes_that_are_no_file_are_refused_under_their_own_name(room):
    make_folder(room)
    junk = b"FLCF junk"
    room.put("d/" + name_of(junk), junk)
    status, _, err = room.run("check", "d")
    assert status == 1 and f"d/{name_of(junk)}".encode() in err and not err.startswith(b"refused Damaged"), f"it said {err!r}"
    room.refused("import", "--no-header", "d", "-", given=b"1,1\n", line=err.split(b"\n")[0].decode())


def a_part_of_another_table_is_named_with_the_first(room):
    make_folder(room)
    room.ok("create", "u", "U", "A", "SMALLINT")
    data = room.get("u")
    room.put("d/" + name_of(data), data)
    first = parts_of(room)[0]
    tables = {True: "T (A SMALLINT, B BIGINT)", False: "U (A SMALLINT)"}
    other = next(name for name in parts_of(room) if (name == name_of(data)) != (first == name_of(data)))
    sentence = f"d/{other}: this holds the table {tables[other != name_of(data)]}, but d/{first} holds {tables[first != name_of(data)]}"
    for words in READERS:
        room.refused(*words, line="refused SchemaDiffers", sentence=None if words[0] == "pack" else sentence)
    room.refused("import", "--no-header", "d", "-", given=b"1,1\n", line="refused SchemaDiffers", sentence=sentence)


def two_loads_of_one_name_are_named_both(room):
    make_folder(room)
    room.make("t", rows=b"9,9\n")
    data = room.get("t")
    room.put("d/" + name_of(data), data)
    own = max((name for name in parts_of(room) if name != name_of(data)), key=lambda name: os.path.getsize(room.path("d/" + name)))
    one, two = sorted((own, name_of(data)))
    for words in READERS[:-1]:
        room.refused(*words, line="refused Conflict 1.1", sentence=f"d/{two}: this and d/{one} have a batch 1.1, with different rows")
    room.refused("pack", "--all", "d", line="refused Conflict 1.1")
    os.remove(room.path("d/" + name_of(data)))
    assert count(room) == 2


def names_that_are_no_parts_are_passed_over(room):
    make_folder(room)
    data = room.get("d/" + parts_of(room)[0])
    name = name_of(b"other")
    for other in (name.upper(), name[:-6].upper() + ".lanes", name[1:], "0" + name, name + ".tmp", name.replace(".lanes", " (1).lanes"), f".{name}.AbCd12", name[:-6], "g" + name[1:]):
        room.put("d/" + other, data + b"damaged")
    os.mkdir(room.path("d/sub"))
    room.put("d/sub/" + name, b"damaged")
    room.ok("check", "d", prints=b"ok batches=1 ranges=0 parts=2 others=10\n")
    # The load's part has all that the empty one has, so the pack is that part, and the other one goes.
    room.ok("pack", "--all", "d", prints=b"ok parts=1 packed=1\n")
    assert len(os.listdir(room.path("d"))) == 11 and count(room) == 2


def a_flipped_bit_in_a_head_is_damage(room):
    make_folder(room, loads=3)
    part = max(parts_of(room), key=lambda name: os.path.getsize(room.path("d/" + name)))
    data = room.get("d/" + part)
    damaged = 0
    for at in range(0, 40):
        room.put("d/" + part, data[:at] + bytes([data[at] ^ 4]) + data[at + 1 :])
        for words in (("import", "--no-header", "d", "/dev/null"), ("delete-rows", "d", "6.6", "0", "0")):
            status, _, err = room.run(*words)
            # What is in a head and does no harm to it, as the number of batches, is not seen by who reads heads alone.
            assert status == 0 or err == f"refused Damaged\nd/{part}: {DAMAGED}\n".encode(), f"{words} at {at} said {err!r}"
            damaged += status
    assert damaged > 20
    room.put("d/" + part, data)


def a_name_that_leads_nowhere_is_told_by_each_command(room):
    make_folder(room, loads=2)
    name = name_of(b"nowhere")
    os.symlink("nowhere", room.path("d/" + name))
    for words in (*READERS, ("import", "--no-header", "d", "/dev/null"), ("delete-rows", "d", "6.6", "0", "0"), ("import", "--no-header", "--batch", "9.9", "d", "/dev/null"), ("apply", "d", "d"), ("offer", "d", "s")):
        if words[0] in ("apply", "offer"):
            room.put("s", b"")
            words = (words[0], "d", "s")
        room.refused(*words, line="refused ReadFault", sentence=f"d/{name}: no such file or folder")
    os.remove(room.path("d/" + name))
    assert count(room) == 4


TESTS = [
    a_flipped_bit_is_seen_by_each_command_and_named,
    a_flipped_bit_in_a_head_is_damage,
    a_name_that_leads_nowhere_is_told_by_each_command,
    a_damaged_smallest_part_is_seen_by_an_import,
    a_smallest_part_that_is_no_file_behind_its_head_is_for_the_next_reader,
    half_a_part_and_an_empty_one_are_damaged,
    a_part_that_is_there_and_damaged_is_not_taken_for_the_new_one,
    bytes_that_are_no_file_are_refused_under_their_own_name,
    a_part_of_another_table_is_named_with_the_first,
    two_loads_of_one_name_are_named_both,
    names_that_are_no_parts_are_passed_over,
]
