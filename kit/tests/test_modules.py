"""The modules by themselves: vectors of the metadata and of user keys, names, sizes, ranges and replies."""
from __future__ import annotations

import os
import pathlib
import re

import pytest
from vuthrel import image, metadata, program, text

TOP = pathlib.Path(__file__).resolve().parent.parent.parent
# The first 47 bytes of the example of docs/FORMAT.md: of `init -a HMAC/SHA256 -l 256 -s 4096 -i 1000`, 1 MiB.
HEAD = "47454f4d3a3a454c4900000000000000070000001002000016000001120000001000000000000010000001e8030000"
EXAMPLE = metadata.Metadata(7, 0x210, 22, 256, 18, 1048576, 4096, 1, 1000, bytes(64), bytes(384))


def test_the_sector_of_the_example_of_the_format() -> None:
    page = (TOP / "docs/FORMAT.md").read_text(encoding="utf-8")
    block = page.split("gives these first 47 bytes:")[1].split("The flags")[0]
    assert "".join(re.findall(r"^    ([0-9a-f]+) ", block, re.M)) == HEAD
    assert EXAMPLE.sector()[:47].hex() == HEAD


def test_a_sector_gives_its_fields() -> None:
    assert metadata.Metadata.of_sector(EXAMPLE.sector()) == EXAMPLE


@pytest.mark.parametrize("at", [0, 15, 16, 46, 110, 494, 495, 510])
def test_a_changed_byte_is_no_metadata(at: int) -> None:
    sector = bytearray(EXAMPLE.sector())
    sector[at] ^= 1
    assert metadata.Metadata.of_sector(bytes(sector)) is None


def test_the_last_byte_is_not_read() -> None:
    assert metadata.Metadata.of_sector(EXAMPLE.sector()[:511] + b"x") == EXAMPLE


def test_an_image_of_the_program_s_own_tests() -> None:
    data = (TOP / "crates/geli_nbd/data/a.img").read_bytes()
    found = metadata.Metadata.of_sector(data[-512:])
    assert found and found.provsize == len(data) and found.sector() == data[-512:]


def test_user_keys_are_those_that_the_proved_code_derives() -> None:
    rows = (TOP / "crates/known_answers/src/user_keys.rt").read_text(encoding="utf-8")
    salt, found = bytes(range(0x80, 0xC0)), 0
    for files, given, count, key in re.findall(
            r'keyfiles: (.*?),\s+passphrase: (None|Some\(.*?\)),\s+iterations: (-?\d+),\s+key: "([0-9a-f]+)"', rows):
        whole = bytes(range(64)) if files == "&KEY_FILE" else bytes_of(files)
        phrase = None if given == "None" else bytes_of(given)
        assert metadata.user_key(whole, phrase, salt, int(count)).hex() == key
        found += 1
    assert found == 9


def bytes_of(literal: str) -> bytes:
    match = re.search(r'b"(.*)"', literal)
    assert match
    return match[1].replace("\\0", "\0").replace("\\n", "\n").encode()


@pytest.mark.parametrize("flags, code, width, size, sectors", [
    (0, 0, 512, 1048576, 2047), (0, 0, 4096, 1048576, 255), (0x10, 18, 4096, 262144, 56),
    (0x10, 20, 65536, 1048576, 13),
    (0x10, 18, 512, 1048576, 1023), (0, 0, 0, 1048576, 0), (0, 0, 4096, 0, 0), (0x10, 18, 100, 1048576, 0)])
def test_sectors(flags: int, code: int, width: int, size: int, sectors: int) -> None:
    it = metadata.Metadata(7, flags, 22, 256, code, size, width, 1, 0, bytes(64), bytes(384))
    assert it.sectors == sectors


def test_a_dump_gives_the_same_fields() -> None:
    rows = ["version: 7", "flags: 0x210", "ealgo: 22", "keylen: 256", "aalgo: 18", "provsize: 1048576",
            "sectorsize: 4096", "keys: 0x1", "iterations: 1000", f"salt: {'00' * 64}", f"mkeys: {'00' * 384}"]
    assert metadata.Metadata.of_rows(rows) == EXAMPLE


@pytest.mark.parametrize("word, size", [("0", 0), ("83886080", 83886080), ("80M", 80 << 20), ("2G", 2 << 30),
                                        ("8191T", 8191 << 40)])
def test_sizes(word: str, size: int) -> None:
    assert text.size_of(word) == size


@pytest.mark.parametrize("word", ["", "1MB", "-1", "01", "1.5G", "8192T", "9007199254740992", "1m", " 1", "1\n"])
def test_words_that_are_no_sizes(word: str) -> None:
    with pytest.raises(text.Failed):
        text.size_of(word)


def test_ranges() -> None:
    assert text.ranges([0, 1, 2, 5, 7, 8]) == [(0, 3), (5, 6), (7, 9)]
    assert text.ranges([3, 3, 4]) == [(3, 5)]
    assert not text.ranges([])


def test_control_characters_are_not_shown() -> None:
    assert text.printable("\x1b]0;x\x07\x9b2J\tn\n\x7f") == "?]0;x??2J\tn\n?"


@pytest.mark.parametrize("name, word", [("a.img", "./a.img"), ("x/y", "x/y"), ("-k", "./-k"),
                                        ("behind:x", "./behind:x")])
def test_names_that_a_line_can_hold(name: str, word: str) -> None:
    assert image.word_of(name) == word


@pytest.mark.parametrize("name", ["a b", "a\tb", "é", os.fsdecode(b"caf\xe9"), "a\nb", "$(x)", "a*"])
def test_names_that_become_links(name: str) -> None:
    try:
        word = image.word_of(name)
        assert re.fullmatch("[A-Za-z0-9._/-]+", word)
        assert os.readlink(word) == os.path.abspath(name)
    finally:
        image.PRIVATE.remove()
    assert not os.path.lexists(word)


@pytest.mark.parametrize("name", ["", "a.img\n"])
def test_names_that_are_refused(name: str) -> None:
    with pytest.raises(text.Failed):
        image.word_of(name)


def test_layers() -> None:
    assert image.Image.of("behind:a").word == "behind:./a"
    assert image.Image.of("join:a:b:c") == image.Image("join:a:b:c", "join:./a:./b:c", ("a", "b:c"))
    assert image.Image.of("./join:a:b") == image.Image("./join:a:b", "./join:a:b", ("./join:a:b",))


@pytest.mark.parametrize("said, number", [("ok\n", 0), ("x: 1\nok 5\n", 0), ("error 15 WrongKey\n", 15), ("", -1),
                                          ("usage: geli\n", -1)])
def test_replies(said: str, number: int) -> None:
    assert program.Reply.of(said).number == number


def test_a_refusal_has_its_cause() -> None:
    assert program.Reply.of("error 15 WrongKey").told() == "error 15 WrongKey: wrong passphrase or wrong key file"
    assert "vuthrel explain error 41" in program.Reply.of("error 41 RequestDone").told()


def test_a_fault_of_a_folder_is_seen(tmp_path: pathlib.Path) -> None:
    assert program.Reply.of("error 26 DeviceFault").told([str(tmp_path)]) == "error 26 DeviceFault: it is a folder"


def test_every_cause_is_of_a_refusal_of_the_page() -> None:
    rows = program.REFUSALS.read_text(encoding="utf-8").splitlines()
    numbers = {int(row.split(" ")[0]) for row in rows if row[:1].isdigit()}
    assert numbers == set(range(1, 49)) and set(program.CAUSES) <= numbers
