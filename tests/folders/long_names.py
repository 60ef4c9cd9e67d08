"""A folder of a table with as many columns as there may be, of the longest names."""

from parts import all_are_named, parts_of


def a_folder_of_32_columns_of_long_names_takes_each_change(room):
    names = [f"{'N' * 62}{number:02}" for number in range(32)]
    room.ok("create", "d/", "T" * 64, *(word for name in names for word in (name, "BIGINT")))
    row = ",".join(str(number) for number in range(32)).encode() + b"\n"
    for words in (), ("--batch", "1.1"), ("--batch", "1.2"):
        room.ok("import", "--no-header", *words, "d", "-", given=row)
    room.ok("delete-rows", "d", "1.2", "0", "0")
    room.ok("delete-rows", "--held", "d", "1.1", "0", "0")
    assert len(parts_of(room)) == 6
    assert room.ok("query", "d", f"SELECT COUNT(*),SUM({names[31]}) FROM {'T' * 64}").splitlines()[1] == b"1,31"
    room.ok("pack", "--all", "d")
    assert len(parts_of(room)) == 1
    all_are_named(room)


TESTS = [a_folder_of_32_columns_of_long_names_takes_each_change]
