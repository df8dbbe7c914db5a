#!/usr/bin/env python3
"""check_failing_calls.py: what the program leaves where a call of the host fails, or something happens just before or after one. Another program
makes the name, the program is killed, or the disk refuses. A library that is laid before the host's meets one call of a whole run. The last line is
'N passed, M failed'.

usage: check_failing_calls.py [--program FILE] [CASE..]
"""
import argparse
import errno
import functools
import os
import re
import subprocess
import sys
import tempfile
from typing import Callable

HERE = os.path.dirname(os.path.abspath(__file__))
TOP = os.path.dirname(os.path.dirname(HERE))
sys.dont_write_bytecode = True
sys.path.insert(0, TOP)
from tests.options import patience
from tests.tally import Tally, fault_in

KILLED = -9
BUSY = "note: V: another program works on it\nerror: another program works on the image\n? HOST BUSY\n"
AS_IT_WAS = "error: the image is not written: the file is as it was\n? HOST WRITE\n"


def noted(name: str, why: str, line: str) -> str:
    """A refusal with its note."""
    return f"note: {name}: {why}\n{line}"


FAILED = "input/output error"
OWNER = "its owner can't be kept"


class Room:
    """A folder with the program, and runs in it of which one call is met."""

    def __init__(self, folder: str, library: str) -> None:
        self.folder, self.library = folder, library

    def sh(self, command: str) -> str:
        """What a shell says that runs a command here."""
        run = subprocess.run(["sh", "-c", command], cwd=self.folder, capture_output=True, text=True, timeout=patience(60))
        return run.stdout + run.stderr

    def pdp8(self, *words: str, call: str = "", number: int = 1, before: str = "", error: int = 0, after: str = "", given: str = "", links: int = 0) -> tuple[int, str]:
        """The status of a run, and what it said on standard error and then on standard output. At the call of this number the command before it is
        run. Then the call fails with the error, or else the command after it is run. What that says is in the file `said`. Where an error is given
        for links, each fails with it."""
        met = {"CALL": call, "NUMBER": str(number), "BEFORE": before, "ERROR": str(error), "AFTER": after, "LINKS": str(links or "")}
        open(f"{self.folder}.log", "w", encoding="utf-8").close()
        met |= {"LD_PRELOAD": self.library, "LOG": f"{self.folder}.log"}
        run = subprocess.run(["./pdp8", *words], cwd=self.folder, env={**os.environ, **met}, input=given, capture_output=True, text=True, timeout=patience(20))
        return run.returncode, run.stderr + run.stdout

    def calls(self) -> list[str]:
        """The calls of the last run but those that open a file."""
        with open(f"{self.folder}.log", encoding="utf-8") as log:
            return [call for call in log.read().split("\n")[:-1] if not call.startswith("open ")]

    def names(self) -> list[str]:
        """The names in the folder but the program's. Those that nobody can guess have their end as `*`."""
        return sorted(re.sub(r"(\.pdp8-)[a-z2-7]{10}$", r"\1*", name) for name in set(os.listdir(self.folder)) - {"pdp8", "said"})


Test = Callable[[Room], None]
CASES: list[Test] = []


def case(test: Test) -> Test:
    CASES.append(test)
    return test


def holds(found: object, wanted: object) -> None:
    assert found == wanted, f"{found!r}, not {wanted!r}"


@case
def a_name_that_comes_after_the_look_is_not_written_over(room: Room) -> None:
    other = "./pdp8 create V 30; echo A | ./pdp8 put V - --as A --text"
    holds(room.pdp8("create", "V", "20", call="realpath", after=other), (1, BUSY))
    holds(room.sh("./pdp8 get V A --text; stat -c %s V"), "A\n15360\n")
    holds(room.names(), ["V"])


@case
def a_name_that_comes_before_the_naming_is_not_written_over(room: Room) -> None:
    holds(room.pdp8("create", "V", "20", call="link", before="./pdp8 create V 30"), (1, BUSY))
    holds(room.sh("stat -c %s V"), "15360\n")
    holds(room.names(), ["V"])


@case
def a_tape_is_not_written_over_a_file_that_comes_after_the_look(room: Room) -> None:
    said = room.pdp8("assemble", "-", "--output", "T", given="1\n$", call="realpath", after="echo mine > T")
    holds(said, (1, noted("T", "another program works on it", "error: another program works on the tape\n? HOST BUSY\n")))
    holds(room.sh("cat T"), "mine\n")


@case
def a_link_that_leads_to_no_file_gets_one_whole_or_none(room: Room) -> None:
    room.sh("mkdir far; ln -s far/next link; ln -s ../V far/next")
    refused = room.pdp8("create", "link", "20", call="fsync", error=errno.EIO)
    holds((refused, room.names()), ((1, noted("link", FAILED, AS_IT_WAS)), ["far", "link"]))
    holds(room.pdp8("create", "link", "20"), (0, "CREATED 20\n"))
    holds(room.sh("readlink link; readlink far/next; ls -A far; stat -c %s V"), "far/next\n../V\nnext\n10240\n")
    holds(room.names(), ["V", "far", "link"])


@case
def a_file_that_comes_where_a_link_leads_is_not_written_over(room: Room) -> None:
    room.sh("ln -s V link")
    holds(room.pdp8("create", "link", "20", call="link", before="./pdp8 create V 30"), (1, BUSY.replace("V", "link")))
    holds(room.sh("stat -c %s V"), "15360\n")
    holds(room.names(), ["V", "link"])


@case
def links_that_lead_to_each_other_get_no_file(room: Room) -> None:
    room.sh("ln -s b a; ln -s a b")
    holds(room.pdp8("create", "a", "20"), (1, noted("a", "too many links", AS_IT_WAS)))
    holds(room.names(), ["a", "b"])


@case
def a_second_name_that_a_killed_program_left_is_taken_away(room: Room) -> None:
    holds(room.pdp8("create", "V", "20", call="link", after="kill -9 $PPID")[0], KILLED)
    holds(room.names(), [".V.pdp8-*", "V"])
    was = room.sh("stat -c %i V")
    holds(room.sh("echo A | ./pdp8 put V - --as A"), "STORED A 1\n")
    assert room.sh("stat -c %i V") != was, "the image is written in its place"
    holds(room.names(), ["V"])


@case
def another_file_beside_an_image_stays(room: Room) -> None:
    room.sh("./pdp8 create V 20; echo mine > .V.pdp8-000; ln V .V.pdp8-001; ln V .V.pdp8-999; ln .V.pdp8-000 mine")
    holds(room.sh("echo A | ./pdp8 put V - --as A"), "STORED A 1\n")
    holds(room.names(), [".V.pdp8-000", "V", "mine"])


LEFT = "note: files that ended writers left beside V are removed: 1 in all\n"
SOUND = "BLOCKS 20\nSEGMENT 1 1\nEMPTY 7 13\n"


@case
def what_a_killed_writer_left_is_taken_away_by_a_check(room: Room) -> None:
    room.sh("./pdp8 create V 20; touch .V.pdp8-000 .V.pdp8-other .V.pdp8-aaaaaaaaaaa .V.pdp8-aaaaaaaa0a .Vpdp8-aaaaaaaaaa; mkdir .V.pdp8-bbbbbbbbbb; ln -s V .V.pdp8-cccccccccc")
    stays = room.names()
    holds(room.pdp8("put", "V", "-", "--as", "A", given="A", call="fsync", before="kill -9 $PPID")[0], KILLED)
    holds(room.names(), sorted([".V.pdp8-*", *stays]))
    holds(room.sh("./pdp8 check V"), SOUND + LEFT)
    holds((room.names(), room.sh("./pdp8 check V")), (stays, SOUND))


@case
def what_killed_writers_left_is_taken_away_by_the_next_one(room: Room) -> None:
    room.sh("./pdp8 create V 20; ./pdp8 create W 20")
    for call in ("open V", "write", "fsync", "rename"):
        room.pdp8("put", "V", "-", "--as", "A", given="A", call=call, before="kill -9 $PPID")
    holds(room.names(), [".V.pdp8-*", "V", "W"])
    holds(room.sh("echo A | ./pdp8 put W - --as A; ls -A | grep -c ^.V.pdp8-; echo A | ./pdp8 put V - --as A"), "STORED A 1\n1\nSTORED A 1\n")
    holds(room.names(), ["V", "W"])


@case
def a_file_that_a_living_writer_holds_stays(room: Room) -> None:
    room.sh("./pdp8 create V 20")
    holds(room.pdp8("put", "V", "-", "--as", "A", given="A", call="fsync", before="./pdp8 check V; echo B 2> none | ./pdp8 put V - --as B; rm none"), (0, "STORED A 1\n"))
    holds((room.sh("cat said"), room.names()), (SOUND + BUSY, ["V"]))


@case
def a_file_that_is_taken_away_before_it_is_locked_is_made_anew(room: Room) -> None:
    room.sh("./pdp8 create V 20")
    holds(room.pdp8("put", "V", "-", "--as", "A", given="A", call="flock", number=2, before="./pdp8 check V"), (0, "STORED A 1\n"))
    holds((room.sh("cat said"), room.names()), (LEFT + SOUND, ["V"]))


@case
def a_second_name_goes_by_a_check_only_once_nobody_holds_it(room: Room) -> None:
    holds(room.pdp8("create", "V", "20", call="unlink", before="./pdp8 check V; ls -A | grep -c ^.V"), (0, "CREATED 20\n"))
    holds((room.sh("cat said"), room.names()), (SOUND + "1\n", ["V"]))
    holds(room.pdp8("create", "W", "20", call="link", after="kill -9 $PPID")[0], KILLED)
    room.sh("ln V .V.pdp8-other")
    holds(room.sh("./pdp8 check W; ./pdp8 check V"), SOUND + SOUND + LEFT.replace(" V ", " W "))
    holds(room.names(), [".V.pdp8-other", "V", "W"])


@case
def planted_names_are_no_obstacle(room: Room) -> None:
    room.sh("./pdp8 create V 20; for n in $(seq -w 0 999); do ln -s V .V.pdp8-$n; done")
    holds(room.sh("echo A | ./pdp8 put V - --as A; ls -A | grep -c ^.V.pdp8-; cat V > W; ./pdp8 list W"), "STORED A 1\n1000\nA 1\nFREE 12\n")


@case
def without_random_bytes_no_file_is_made(room: Room) -> None:
    room.sh("./pdp8 create V 20")
    status, said = room.pdp8("put", "V", "-", "--as", "A", given="A", call="random", error=errno.ENOSYS)
    holds((status, said.split("\n")[-2], room.names()), (1, "? HOST WRITE", ["V"]))


@case
def an_image_whose_owner_is_not_kept_is_not_written(room: Room) -> None:
    room.sh("./pdp8 create V 20; chown 65534:65533 V || chgrp $(id -G | tr ' ' '\\n' | tail -n 1) V")
    was = os.stat(f"{room.folder}/V")
    if (was.st_uid, was.st_gid) != (os.geteuid(), os.getegid()):
        for error, why in {errno.EPERM: OWNER, errno.EACCES: OWNER, errno.EROFS: "read-only file system", errno.EDQUOT: "no space left", errno.EIO: FAILED}.items():
            said = room.pdp8("put", "V", "-", "--as", "A", given="A", call="owner", error=error)
            holds((error, said, room.names()), (error, (1, noted("V", why, AS_IT_WAS)), ["V"]))
        holds(room.sh("./pdp8 list V; stat -c %u:%g V"), f"FREE 13\n{was.st_uid}:{was.st_gid}\n")


@case
def a_writer_comes_in_only_once_a_new_image_has_one_name(room: Room) -> None:
    holds(room.pdp8("create", "V", "20", call="unlink", before="./pdp8 squeeze V"), (0, "CREATED 20\n"))
    holds(room.sh("cat said"), BUSY)
    holds(room.names(), ["V"])


@case
def a_file_that_gets_no_number_of_its_own_is_taken_away(room: Room) -> None:
    holds(room.pdp8("create", "V", "20", call="dup", error=errno.EMFILE), (1, noted("V", FAILED, AS_IT_WAS)))
    holds(room.names(), [])
    room.sh("./pdp8 create V 20; echo A | ./pdp8 put V - --as A")
    holds(room.pdp8("get", "V", "A", "--into", "F", call="dup", error=errno.EMFILE), (1, noted("F/A", FAILED, "A: ? HOST WRITE\n")))
    holds(room.sh("ls -A F"), "")


@case
def a_time_that_is_not_set_stops_no_file(room: Room) -> None:
    room.sh("./pdp8 create V 20; echo A | ./pdp8 put V - --as A --date 1974-03-12")
    holds(room.pdp8("get", "V", "A", "--into", "F", call="date", error=errno.EPERM), (0, "GOT A 1\n"))
    holds(room.sh("ls F; find F/A -newermt 2000-01-01"), "A\nF/A\n")
    holds(room.pdp8("get", "V", "A", "--into", "G"), (0, "GOT A 1\n"))
    holds(room.calls(), ["dup", "write", "date", "link", "unlink", "print"])
    holds(room.sh("date -u -r G/A +%F"), "1974-03-12\n")


@case
def a_file_system_without_further_names_gets_new_files(room: Room) -> None:
    said = room.pdp8("create", "V", "20", call="link", before="./pdp8 create V 30", error=errno.EPERM)
    holds((said, room.sh("stat -c %s V")), ((1, BUSY), "15360\n"))
    holds(room.pdp8("create", "W", "20", call="link", error=errno.EPERM), (0, "CREATED 20\n"))
    holds((room.names(), room.sh("stat -c %s W")), (["V", "W"], "10240\n"))


@case
def a_new_file_is_held_before_it_has_its_bytes_where_there_are_no_further_names(room: Room) -> None:
    said = room.pdp8("create", "V", "20", call="rename", before="./pdp8 squeeze V", links=errno.EPERM)
    holds((said, room.sh("cat said")), ((0, "CREATED 20\n"), BUSY))
    holds(room.names(), ["V"])
    said = room.pdp8("create", "W", "20", call="rename", error=errno.EIO, links=errno.EPERM)
    holds((said, room.names()), ((1, noted("W", FAILED, AS_IT_WAS)), ["V"]))


@case
def an_image_that_is_replaced_once_it_is_open_is_opened_anew(room: Room) -> None:
    room.sh("./pdp8 create V 20")
    other = "echo B | ./pdp8 put V - --as B"
    holds(room.pdp8("put", "V", "-", "--as", "A", call="open V", after=other, given="A"), (0, "STORED A 1\n"))
    holds(room.sh("cat said; ./pdp8 list V"), "STORED B 1\nA 1\nB 1\nFREE 11\n")


@case
def a_read_that_fails_is_no_end(room: Room) -> None:
    room.sh("./pdp8 create V 20; echo A | ./pdp8 put V - --as A; echo B > B; printf '1;2\n$\n' > s.pa")
    for words in (("get", "V", "A"), ("put", "V", "B"), ("put", "V", "-", "--as", "B"), ("assemble", "s.pa")):
        for number in (1, 2):
            status, said = room.pdp8(*words, call="read", number=number, error=errno.EIO, given="B\n")
            holds((words, number, status, said.split("\n")[-2]), (words, number, 1, "? HOST READ"))
    holds(room.sh("./pdp8 list V"), "A 1\nFREE 12\n")


@case
def a_file_that_is_written_while_it_is_read_is_refused(room: Room) -> None:
    room.sh("./pdp8 create V 20; ./pdp8 create W 20; echo A | ./pdp8 put V - --as A --text; printf '1;2\n$\n' > s.pa; sleep 0.1")
    write = "printf B | dd of={} bs=1 seek=7000 conv=notrunc"
    for words, number in {("list", "V"): 1, ("get", "V", "A"): 1, ("put", "V", "-", "--as", "B"): 1, ("copy", "V", "A", "W"): 8}.items():
        status, said = room.pdp8(*words, call="read", number=number, after=write.format("V"), given="B\n")
        holds((words, status, said.split("\n")[-2]), (words, 1, "? HOST READ"))
        room.sh("sleep 0.1")
    holds(room.pdp8("check", "V", "W", call="read", after=write.format("V")), (1, noted("V", "changed while it was read", "V: ? HOST READ\nW: BLOCKS 20\nW: SEGMENT 1 1\nW: EMPTY 7 13\nIMAGES 2 REFUSED 1\n")))
    status, said = room.pdp8("assemble", "s.pa", call="read", number=2, after="echo >> s.pa")
    holds((status, said.split("\n")[-2]), (1, "? HOST READ"))
    holds(room.sh("./pdp8 list V; ./pdp8 list W"), "A 1\nFREE 12\nFREE 13\n")


@case
def a_read_that_is_interrupted_is_made_again(room: Room) -> None:
    room.sh("./pdp8 create V 20; echo A | ./pdp8 put V - --as A --text")
    holds(room.pdp8("get", "V", "A", "--text", call="read", number=2, error=errno.EINTR), (0, "A\n"))
    room.sh("printf '*200\nCLA;KSF;JMP .-1;KRB;TLS;JMP .-4\n$\n' | ./pdp8 assemble - --output T")
    said = room.pdp8("teletype", "T", call="read", number=3, error=errno.EINTR, given="AB")
    holds(said, room.pdp8("teletype", "T", given="AB"))


@case
def a_file_of_the_same_number_on_another_disk_is_another(room: Room) -> None:
    room.sh("./pdp8 create V 20")
    for number, times in {99: 1, 2: 2, 3: 2}.items():
        holds(room.pdp8("put", "V", "-", "--as", "A", call="statx", number=number, given="A"), (0, "STORED A 1\n"))
        with open(f"{room.folder}.log", encoding="utf-8") as log:
            holds((number, log.read().split("\n").count("open V")), (number, times))


@case
def a_tape_is_not_written_where_it_is_not_known_whether_it_is_a_source(room: Room) -> None:
    room.sh("printf '1\n$\n' > a.pa")
    for number in (3, 4):
        said = room.pdp8("assemble", "./a.pa", "--output", "a.pa", call="statx", number=number, error=errno.EIO)
        holds((said, room.sh("cat a.pa")), ((1, f"note: a.pa: {FAILED}\n" + AS_IT_WAS.replace("image", "tape")), "1\n$\n"))
    room.sh("./pdp8 create V 20; echo A | ./pdp8 put V - --as V --text; cp V kept")
    for number in range(1, 8):
        room.pdp8("get", "./V", "V", "--into", ".", "--force", call="statx", number=number, error=errno.EIO)
        holds((number, room.sh("cmp V kept")), (number, ""))


@case
def an_image_on_a_disk_that_can_only_be_read_is_read(room: Room) -> None:
    room.sh("./pdp8 create V 20")
    holds(room.pdp8("run", "V", call="open V", error=errno.EROFS, given="DIRECT\n"), (0, "FREE 13\n"))


@case
def an_image_that_is_written_is_held_before_anything_is_read(room: Room) -> None:
    room.sh("./pdp8 create V 20; ./pdp8 create W 20; echo A | ./pdp8 put W - --as A; echo B > B.TX; echo C > C.TX")
    for call, words in {"B.TX": ("put", "V", "B.TX", "C.TX"), "W": ("copy", "W", "A", "V")}.items():
        status, _ = room.pdp8(*words, call=f"open {call}", before="./pdp8 delete V A")
        holds((status, room.sh("cat said")), (0, BUSY))
    holds(room.sh("./pdp8 list V"), "A 1\nB.TX 1\nC.TX 1\nFREE 10\n")


NOT_SYNCED = "note: the image is written, but its folder is not synced: whether a crash keeps it isn't known\n"


@case
def a_new_image_and_its_name_are_on_the_disk_before_that_is_said(room: Room) -> None:
    room.pdp8("create", "V", "20")
    holds(room.calls(), ["realpath", "dup", "write", "fsync", "link", "unlink", "fsync folder", "print"])
    room.pdp8("put", "V", "-", "--as", "A", given="A")
    holds(room.calls(), ["realpath", "dup", "dup", "write", "fsync", "rename", "fsync folder", "print"])
    room.pdp8("run", "--keep", "V", given="STORE B 0\nSTORE C 0\n")
    saved = ["dup", "write", "fsync", "rename", "fsync folder"]
    holds(room.calls(), ["realpath", "dup", *saved, *saved, "print"])
    room.pdp8("assemble", "-", "--output", "T", given="1\n$")
    holds(room.calls(), ["realpath", "dup", "write", "fsync", "link", "unlink", "fsync folder"])


@case
def a_folder_that_is_not_synced_is_told(room: Room) -> None:
    def lost(*words: str, given: str = "", number: int = 1) -> tuple[int, str]:
        return room.pdp8(*words, given=given, number=number, call="fsync folder", error=errno.EIO)

    holds(lost("create", "V", "20"), (0, f"{NOT_SYNCED}CREATED 20\n"))
    holds(lost("put", "V", "-", "--as", "A", given="A"), (0, f"{NOT_SYNCED}STORED A 1\n"))
    holds(lost("run", "--keep", "V", given="STORE B 0\nSTORE C 0\n"), (0, f"{NOT_SYNCED}STORED B 1\nSTORED C 1\n"))
    holds(room.sh("./pdp8 list V"), "A 1\nB 1\nC 1\nFREE 10\n")
    words = ("assemble", "-", "--list", "L", "--output", "T")
    holds(lost(*words, given="1\n$"), (0, NOT_SYNCED.replace("image", "listing")))
    holds(lost(*words, given="1\n$", number=2), (0, NOT_SYNCED.replace("image", "tape")))
    room.sh("mkdir blind; mv V blind; chmod 333 blind")
    holds(lost("assemble", "-", "--output", "T", given="1\n$"), (0, NOT_SYNCED.replace("image", "tape")))


TAPE = bytes([0o200, 0o102, 0, 0, 1, 1, 3, 0o200])
WRITERS = {
    ("tape",): TAPE, ("source",): TAPE, ("rim",): b"\x80\x42\0\0\1\x80", ("assemble", "-"): b"1\n$",
    ("teletype", "T"): b"", ("trace", "T"): b"", ("profile", "T"): b"", ("boot", "D", "--look"): b"AH", ("run", "V"): b"DIRECT\n", ("list", "V"): b"", ("list", "V", "--long"): b"",
    ("check", "V"): b"", ("check", "V", "W"): b"", ("check", "V", "--all"): b"", ("get", "V", "A"): b"", ("get", "V", "--blocks", "1", "1"): b"",
    ("get", "V", "A", "--into", "F", "--force"): b"", ("put", "V", "-", "--as", "B"): b"B", ("rename", "V", "A", "C"): b"", ("copy", "V", "A", "W"): b"",
    ("delete", "V", "A"): b"", ("squeeze", "V"): b"", ("create", "N", "8"): b"", ("list", "none"): b"", ("--help",): b"", ("--version",): b"",
}
# the image that has the change after it
CHANGED = {"run": b"V", "put": b"V", "rename": b"V", "copy": b"W", "delete": b"V", "squeeze": b"V", "create": b"N"}


@case
def output_that_takes_no_more_is_told_by_all_commands_alike(room: Room) -> None:
    full, reader_gone = os.open("/dev/full", os.O_WRONLY), os.pipe()
    os.close(reader_gone[0])
    found = {}
    for words, given in WRITERS.items():
        for output, wanted in ((full, (1, b"? 9 WRITER\n")), (reader_gone[1], (141, b""))):
            with open(f"{room.folder}/D", "wb") as disk:
                disk.write(DISK.ljust(512, b"\0"))
            room.sh("rm -f N; ./pdp8 create V 20; echo A | ./pdp8 put V - --as A; ./pdp8 create W 20; ./pdp8 assemble --output T - <<.\nCLA;TAD C;TLS;JMP .-1;C, 301\n$\n.\n")
            run = subprocess.run(["./pdp8", *words], cwd=room.folder, input=given, stdout=output, stderr=subprocess.PIPE, timeout=patience(20))
            status, said = wanted
            if words == ("list", "none"):
                status, said = 1, b"note: none: no such file\n" + said
            elif words[0] in CHANGED and output == full:
                said = b"note: %s has the change\n" % CHANGED[words[0]] + said
            if (run.returncode, run.stderr) != (status, said):
                found[words, wanted] = (run.returncode, run.stderr)
    holds(found, {})


REASONS = {
    errno.ENOENT: "no such file", errno.EISDIR: "is a folder", errno.ENOTDIR: "a part of its path is no folder", errno.EACCES: "permission denied",
    errno.EPERM: "permission denied", errno.EROFS: "read-only file system", errno.ENOSPC: "no space left", errno.EDQUOT: "no space left",
    errno.ELOOP: "too many links", errno.EMLINK: "too many links", errno.EFBIG: "larger than the file system takes", errno.EIO: FAILED,
    errno.EINVAL: FAILED, errno.EMFILE: FAILED, errno.ESTALE: FAILED, errno.ENXIO: FAILED, errno.ENAMETOOLONG: FAILED,
}


@case
def a_file_that_is_not_read_has_its_reason_in_a_note(room: Room) -> None:
    room.sh("./pdp8 create V 20; echo A | ./pdp8 put V - --as A; printf '1\n$\n' > s.pa")
    for error, why in REASONS.items():
        for words, call, name in ((("list", "V"), "open V", "V"), (("list", "V"), "read", "V"), (("assemble", "s.pa"), "open s.pa", "s.pa")):
            status, said = room.pdp8(*words, call=call, error=error)
            holds((words, call, error, status, said.split("\n")[0]), (words, call, error, 1, f"note: {name}: {why}"))
            holds((words, call, error, said.count("note:"), said.split("\n")[-2]), (words, call, error, 1, "? HOST READ"))


@case
def a_file_that_is_not_written_has_its_reason_in_a_note(room: Room) -> None:
    room.sh("./pdp8 create V 20; echo A | ./pdp8 put V - --as A")
    for error, why in REASONS.items():
        for call in ("dup", "write", "fsync", "rename"):
            said = room.pdp8("put", "V", "-", "--as", "B", call=call, number=2 if call == "dup" else 1, error=error, given="B")
            holds((call, error, said), (call, error, (1, noted("V", why, AS_IT_WAS))))
        for call in ("write", "fsync"):
            said = room.pdp8("create", "W", "20", call=call, error=error)
            holds((call, error, said), (call, error, (1, noted("W", why, AS_IT_WAS))))
    holds(room.sh("./pdp8 list V"), "A 1\nFREE 12\n")
    holds(room.names(), ["V"])


# A disk of one sector: its program prints a key and writes the sector 1, and H halts.
COUNTED = "6031 5031 6036 6046 1060 7650 7402 2061 7000 1062 6746 6744 1063 6743 6741 5047 5031 0 0 0 0 0 0 7470 0 4100 1"
DISK = bytes(50) + b"".join(int(word, 8).to_bytes(2, "little") for word in COUNTED.split())
HALTED = "HALT 00040 AC 0000 L 1 MQ 0000\n"


@case
def a_disk_that_is_not_saved_has_its_reason_in_a_note(room: Room) -> None:
    for name in "DE":
        with open(f"{room.folder}/{name}", "wb") as disk:
            disk.write(DISK.ljust(512, b"\0"))
    for error, why in REASONS.items():
        for call in ("fsync", "rename"):
            status, said = room.pdp8("boot", "D", "--rk1", "E", call=call, error=error, given="AH")
            holds((call, error, status, said.replace("AH", "", 1)), (call, error, 1, f"note: D: {why}\n{HALTED}{AS_IT_WAS}"))
    for name in "DE":
        with open(f"{room.folder}/{name}", "rb") as disk:
            holds(disk.read(), DISK.ljust(512, b"\0"))
    holds(room.names(), ["D", "E"])
    for error, why in {errno.EROFS: "read-only file system", errno.EACCES: "permission denied", errno.EPERM: "permission denied"}.items():
        holds(room.pdp8("boot", "D", call="open D", error=error, given="AH"), (1, noted("D", why, AS_IT_WAS)))
        status, said = room.pdp8("boot", "D", "--look", call="open D", number=2, error=error, given="AH")
        holds((status, said.replace("AH", "", 1)), (0, HALTED))


@case
def a_disk_of_another_drive_that_is_not_saved_has_its_drive_in_the_line(room: Room) -> None:
    for name, words in {"D": COUNTED.replace("4100", "4102"), "E": "0"}.items():
        with open(f"{room.folder}/{name}", "wb") as disk:
            disk.write((bytes(50) + b"".join(int(word, 8).to_bytes(2, "little") for word in words.split())).ljust(512, b"\0"))
    line = AS_IT_WAS.replace("\n? HOST WRITE", "\n? HOST WRITE RK1")
    for call in ("fsync", "rename"):
        status, said = room.pdp8("boot", "D", "--rk1", "E", call=call, error=errno.ENOSPC, given="AH")
        holds((call, status, said.replace("AH", "", 1)), (call, 1, f"note: E: no space left\n{HALTED}{line}"))
    holds(room.pdp8("boot", "D", "--rk1", "E", call="open E", error=errno.EROFS, given="AH"), (1, noted("E", "read-only file system", line)))
    holds(room.sh("stat -c %s E"), "512\n")


@case
def a_name_that_can_not_be_given_has_its_reason_in_a_note(room: Room) -> None:
    for error, why in REASONS.items():
        if error in (errno.EPERM, errno.EACCES, errno.EMLINK):
            continue
        said = room.pdp8("create", "W", "20", call="link", error=error)
        holds((error, said, room.names()), (error, (1, noted("W", why, AS_IT_WAS)), []))


@case
def an_image_that_may_not_be_written_has_its_reason_in_a_note(room: Room) -> None:
    room.sh("./pdp8 create V 20; echo A | ./pdp8 put V - --as A")
    for error, why in {errno.EROFS: "read-only file system", errno.EACCES: "permission denied", errno.EPERM: "permission denied"}.items():
        holds(room.pdp8("delete", "V", "A", call="open V", error=error), (1, noted("V", why, AS_IT_WAS)))


def tried(test: Test, folder: str, program: str, library: str) -> str:
    """What is wrong with a case, in a folder of its own."""
    os.mkdir(folder)
    os.symlink(program, f"{folder}/pdp8")
    test(Room(folder, library))
    return ""


def main() -> int:
    words = argparse.ArgumentParser()
    words.add_argument("--program", default=f"{TOP}/crates/pdp8/out/pdp8")
    words.add_argument("cases", nargs="*")
    given = words.parse_args()
    tests = {test.__name__: test for test in CASES}
    tally = Tally(len(tests))
    with tempfile.TemporaryDirectory(prefix="pdp8-calls-") as work:
        library = f"{work}/meet.so"
        subprocess.run(["cc", "-shared", "-fPIC", "-o", library, f"{HERE}/meet.c", "-ldl"], check=True)
        for name in given.cases or tests:
            fault = fault_in(functools.partial(tried, tests[name], f"{work}/{name}", os.path.abspath(given.program), library))
            tally.add("cases", fault and f"{name}: {fault}")
    return tally.end()


if __name__ == "__main__":
    sys.exit(main())
