#!/usr/bin/env python3
"""manual.py PROGRAM NAME: writes the manual page of the program pdp8, laid under this name, to standard output. The commands, their groups and
their options are what the program says of itself (`help`, and `COMMAND --help` for each of its commands)."""
import os
import re
import subprocess
import sys


def help_of(program: str, *words: str) -> str:
    """What the program says of itself, or of a command."""
    return subprocess.run([program, *words, "--help"], capture_output=True, text=True, check=True).stdout


def plain(text: str) -> str:
    """A text as roff reads it: no character of it is a command or a ligature."""
    text = text.replace("\\", "\\e").replace("-", "\\-").replace("^", "\\(ha").replace("~", "\\(ti").replace("'", "\\(aq")
    return re.sub(r"(?m)^(?=\.)", "\\\\&", text)


def groups_of(told: str) -> list[tuple[str, list[str]]]:
    """The groups of commands that the program's own help lists: each its heading and the names of its commands."""
    found = re.findall(r"(?m)^(\S[^\n]*):\n((?:  [a-z]+ +\S.*\n)+)", told)
    named = [(heading, re.findall(r"(?m)^  ([a-z]+) ", rows)) for heading, rows in found]
    return [(heading, [it for it in names if it != "help"]) for heading, names in named if names != ["help"]]


def options_of(told: str) -> list[tuple[str, str]]:
    """The options that a command's help lists, but for that of help itself: each its head and its text."""
    found = re.findall(r"(?m)^ {2,6}(-\S[^\n]*)\n {10}(\S.*)$", told)
    return [(head, text) for head, text in found if "--help" not in head]


def about_of(told: str) -> tuple[str, str]:
    """What a command's help begins with, up to its usage, and that."""
    found = re.match(r"(?s)(.*?)\n\nUsage: pdp8 (.*?)\n", told)
    if not found:
        sys.exit(f"manual.py: the program's help has no usage: {told[:80]}")
    return found[1].split("\n\n")[0].replace("\n", " "), found[2]


def option(head: str, text: str) -> list[str]:
    shown = re.sub(r"<(\w+)>", r"\\fI\1\\fR", plain(head))
    shown = re.sub(r"((?:\\-){1,2}\w[\w\\-]*)", r"\\fB\1\\fR", shown)
    return [f'.IP "{shown}" 8', plain(text)]


# The options that several commands have, and what each says there.
SHARED = {
    "--volume": "The volume of an RK05 disk, 1 or 2, where the file of the image is one of two volumes; IMAGE:1 and IMAGE:2 mean it too.",
    "--lenient": "Read an image with faults: top bits are taken off, a length is made whole; each is printed on standard error.",
    "--dectape": "The file of the image is a DECtape, of 129 words a block. In \\fBcreate\\fR: write one.",
    "--plain": "The file of the image is one volume from its first byte, whatever stands in it.",
    "--wait": "Wait so long while another program holds the image, 0 to 3600 seconds; else not at all.",
    "--cpu": "The machine: 8i, a PDP-8/I, or 8e, a PDP-8/E; else the 8/I.",
    "--start": "The cell to start at, in octal, as 200, 10200 or 1:0200; else that of the tape's first word.",
    "--switches": "The word that the switches are set to, in octal; else 0000.",
    "--steps": "The most steps that are made, 1 up.",
    "--keys": "The keys to strike, each where the program asks for one; the end of a line is CR.",
    "--raw": "Strike each byte as it is, with no change of line ends and no top bit set.",
    "--look": "Write no file: what is written to a disk is gone at the end. In \\fBrun\\fR: never write the image.",
    "--rk0": "With --cpu 8e the file of the RK05 disk in drive 0.",
    "--rk1": "The file of the disk in drive 1.",
    "--rk2": "The file of the disk in drive 2.",
    "--rk3": "The file of the disk in drive 3.",
    "--lock": "Lock a drive, 0 to 3, so that nothing is written to its disk; may be given for each drive.",
    "--disk\\-time": "The instructions of a transfer beside its seek, 0 to 1000000; else 10.",
    "--seek\\-time": "The instructions that an arm takes for each cylinder, 0 to 1000000; else 10.",
    "--at": "The first block of a file, 0 to 4095, in place of its name or beside names.",
    "--text\\-of": "Extensions of files that are texts, as PA,TX.",
    "--year": "The last of the eight years that dates mean, 1977 to 9999; else the one that block 0 gives.",
}

EXAMPLES = [
    ("A source becomes a tape and a listing", "pdp8 assemble add.pa -o add.bin -l add.ls"),
    ("The words of a tape, and a source of it", "pdp8 tape add.bin; pdp8 source add.bin --start 200"),
    ("A program runs with the terminal as its Teletype", "pdp8 teletype hello.bin"),
    ("Its first steps, with the switches set", "pdp8 trace hello.bin --steps 20 --switches 17"),
    ("A new volume, and files of this system on it", "pdp8 create disk.img 256 --new; pdp8 put disk.img add.pa notes.tx -t"),
    ("A source goes to a volume as a tape", "pdp8 assemble add.pa | pdp8 put disk.img - --as add.bn --wait 10"),
    ("What is on the second volume of a disk", "pdp8 list disk.rk05 -l -v 2"),
    ("All texts of a volume go to a folder", "pdp8 get disk.img '*.pa' '*.tx' -t --into texts"),
    ("A script runs on a volume, which is kept as it goes", "pdp8 run disk.img --keep --strict < script"),
    ("Which of many images are sound", "pdp8 check -a *.img"),
]

REFUSALS = """1 BAD LINE          a line of a script has none of the forms
2 NO JOB, 3 TOO MANY JOBS   of a script's jobs, at most 8
4.1 NOT FOUND       no file has the name
4.2 NO ROOM n       no run of free blocks takes it; n is the longest
4.3 DIRECTORY FULL  the directory has no room for the entry
4.4 BUSY NAME       a job holds the file
4.5 BAD NAME        no name: six letters and digits, a dot, two
4.11 NOTHING WRITTEN        no byte came
4.8 DEVICE, 4.9 STOPPED      the volume failed
5 CC n              the assembler refuses line n, with its code
6.1 BAD FRAME n     frame n of the tape can't stand there
6.2 NO ORIGIN       a word of the tape comes before any origin
6.3 CHECK SUM f c   the sum on the tape is f, that of its words c
6.4 NO TRAILER      the frames end before a trailer
7 BAD TEXT          a byte is above 0177, or is a control Z
8 READER, 9 WRITER  a stream can't be read, or takes no more
10 MEMORY           memory ran out
11 TOO MANY BREAKS  64 breaks are set
IMAGE 1 to 4        the bytes are no image of a volume
DIRECTORY 1 to 8    the directory is not sound; check shows where
RIM 1, RIM 2        the frames are no RIM tape
CORE 1, CORE 2      the file is no core image
NAMES 1 to 6        a line of a file of names can't be followed
DISK 1, DISK 2      the file is no disk, or no DECtape
BLOCKS 1 ONLY n     the image has n blocks only
RENAME 1 FILE EXISTS, PUT 1 SAME NAME       the name is there already
HOST READ, HOST WRITE       a file of this system can't be read or written
HOST EXISTS         there is a file of that name
HOST BUSY           another program holds the image"""

STATUS = """0, or 1 after a fault, or 2 for a command line that is refused. \\fBrun\\fR has 0 where replies are refusals, unless \\-\\-strict is given.
A reader that closes the output early ends a command with 141."""

FILES = """.IP ".IMAGE.pdp8\\-NNN" 8
A new image beside the old one, before it takes its name. What a killed program leaves of them may be deleted."""

# What a program owes to its proof, and what one has that was built without.
PROOF = """The proved program has a proof that none of its checks can fail, and that its answers are those that its contracts state. The one
that is built with checks tests each index, sum and conversion as it runs, and ends with status 125 and one line where a test fails; no
proof says that its answers are right."""

SEE = "The folder docs of the sources shows each command in sessions. simh(1), palbart(1)."


def commands(program: str, told: str) -> list[str]:
    """The commands by their groups, with the options of each that no other shares."""
    lines, heads = list[str](), dict[str, str]()
    for heading, names in groups_of(told):
        lines += [f".SS {heading}"]
        for name in names:
            own = help_of(program, name)
            about, usage = about_of(own)
            lines += [f'.IP "\\fBpdp8 {plain(usage)}\\fR"', plain(about)]
            options = options_of(own)
            heads.update((key, head) for head, _ in options for key in SHARED if re.search(rf"{key}\b(?!-)", head) and "--to-" not in head)
            options = [it for it in options if "--to-" in it[0] or not any(re.search(rf"{key}\b(?!-)", it[0]) for key in SHARED)]
            if options:
                lines += [".RS", *(line for it in options for line in option(*it)), ".RE"]
    shared = [line for key, text in SHARED.items() for line in option(heads[key], "@")[:1] + [text.replace("--", "\\-\\-")]]
    return [*lines, ".SS Options of several commands", *shared]


def page(program: str) -> str:
    asked = subprocess.run([program, "--version"], capture_output=True, text=True)
    if asked.returncode:
        sys.exit(f"manual: the program ends with status {asked.returncode} where its version is asked")
    version = asked.stdout.strip()
    told = help_of(program)
    about = told.split("\n")[0]
    lines = [f'.TH PDP8 1 "" "{version}" "Geivottu"', ".SH NAME", f"pdp8 \\- {plain(about[0].lower() + about[1:])}"]
    lines += [".SH SYNOPSIS", ".B pdp8", ".I COMMAND", ".RI [ ARGUMENT ...]", ".br", ".B pdp8 help", ".RI [ COMMAND ]"]
    lines += [".SH COMMANDS", *commands(program, told)]
    lines += [".SH EXAMPLES", *(line for it, example in EXAMPLES for line in (f'.IP "{plain(it)}:" 4', f".B {plain(example)}"))]
    lines += [".SH EXIT STATUS", STATUS, ".SH REFUSALS", "Each begins with a question mark.", ".nf", plain(REFUSALS), ".fi"]
    return "\n".join([*lines, ".SH FILES", FILES, ".SH PROOF", plain(PROOF), ".SH SEE ALSO", SEE]) + "\n"


def main(words: list[str]) -> None:
    if len(words) != 2 or not os.access(words[0], os.X_OK):
        sys.exit("manual: usage: manual.py PROGRAM NAME")
    text = page(os.path.abspath(words[0]))
    sys.stdout.write(re.sub(r"(?:(?<![\w./])|(?<=\\fB))pdp8\b", plain(words[1]).replace("\\", "\\\\"), text).replace(".TH PDP8", f".TH {words[1].upper()}"))


if __name__ == "__main__":
    main(sys.argv[1:])
