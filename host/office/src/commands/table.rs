//! The table of the commands: their names, their options, and what the help says of them.

use super::{check, clean, folders, format, get, look, names, put, recover};
use crate::help::{Choice, Command};

const CUT: Choice = Choice {
    name: "--cut",
    value: Some("GROUP"),
    text: "rehearse a battery swap: of this group of stores (from 1) every other one\n                  \
           is written, and the command ends there, with exit status 4",
};

const PROGRESS: Choice = Choice {
    name: "--progress",
    value: None,
    text: "show the progress line also where standard error is no terminal",
};

const REPLACE: Choice = Choice {
    name: "--force",
    value: None,
    text: "replace files of the host that exist",
};

/// The commands, in the order in which the help lists them.
pub static COMMANDS: [Command; 18] = [
    Command {
        name: "format",
        forms: &["VOLUME [--pages P] [--inodes N] [--force]"],
        summary: "makes a new, empty volume",
        text: "\
Makes a new, empty volume and says its sizes and its free pages. The new file is
written beside the old one and takes its place at the end, so that a format that
is killed leaves the old file or the new. A file that exists and is not empty is
replaced only with --force; what it held is then gone.",
        options: &[
            Choice {
                name: "--pages",
                value: Some("P"),
                text: "pages of 512 bytes, 16 to 4096; 256 if not given",
            },
            Choice {
                name: "--inodes",
                value: Some("N"),
                text: "inodes, a multiple of 8 from 8 to 256; 64 if not given",
            },
            Choice {
                name: "--force",
                value: None,
                text: "replace a file that exists and is not empty",
            },
        ],
        example: "office format day.vol --pages 512 --inodes 128",
        least: 1,
        most: 1,
        run: format::run,
    },
    Command {
        name: "put",
        forms: &["VOLUME PATH.. [--to FOLDER] [--as PATH] [--progress] [--cut GROUP]"],
        summary: "puts files of the host, and what is in folders, into the volume",
        text: "\
Puts each PATH, a file of the host or a folder. Of a folder all that is in it is
put, in byte order of the names: files under their own names, and folders as
folders, whole trees of them. Everything goes into the root, or into the FOLDER
of --to; folders of the volume that are missing are made. A file of the same name
is replaced; other names that it has keep the old file. Paths that cannot be put
(a name over 32 bytes, a file over 65,536 bytes, no regular file, a symbolic link
to a folder, two of one name, a file where the volume has a folder or the other
way round) are all listed before the first store, and nothing is put. No file and
no folder can get the name \".\" or \"..\".

Each file is put whole or not at all, whatever the power does: it is written in
its folder under the name .office-part and renamed at the end. A .office-part that
a killed put left is removed by the next put, and by recover. A put that was killed
can be run again: it then puts everything anew. If the volume refuses a file,
nothing of it is stored; put says what is in and what is not.

So many pages stay free that the longest log of a folder and the longest log of a
file can be cleaned, and files removed; a file that would leave fewer is refused.
Where there is no room, put cleans logs first, if that helps, and says which.",
        options: &[
            Choice {
                name: "--to",
                value: Some("FOLDER"),
                text: "put into this folder of the volume; folders that are missing are made",
            },
            Choice {
                name: "--as",
                value: Some("PATH"),
                text: "the path in the volume, for one file; with - as PATH, of standard input",
            },
            PROGRESS,
            CUT,
        ],
        example: "office put day.vol bookings arrivals.txt --to north/week1",
        least: 2,
        most: usize::MAX,
        run: put::run,
    },
    Command {
        name: "get",
        forms: &[
            "VOLUME PATH [DEST] [--force] [--progress]",
            "VOLUME --all FOLDER [--force] [--progress]",
        ],
        summary: "copies a file, a folder, or everything to the host",
        text: "\
Copies a file of the volume to DEST, or to its own name in the current folder. If
DEST is a folder, the file goes into it; - is standard output. Of a folder of the
volume all that is in it is copied into the folder DEST, or into one of its own
name in the current folder; with --all, all that is in the root into FOLDER.
Folders of the host that are missing are made. Files of the host that exist are
not replaced without --force; of a folder, everything that is in the way is listed
before the first file is written, and nothing is copied.

The host cannot have a file or a folder named \".\" or \"..\": one of the volume is
copied only to a DEST that names it. The copy of the folder that it is in has the
others, says what it left out and how to get it, and the exit status is then 3.",
        options: &[
            Choice {
                name: "--all",
                value: Some("FOLDER"),
                text: "copy everything into this folder",
            },
            REPLACE,
            PROGRESS,
        ],
        example: "office get day.vol north/week1 evening",
        least: 1,
        most: 3,
        run: get::run,
    },
    Command {
        name: "ls",
        forms: &["VOLUME [PATH] [-R]"],
        summary: "lists the names in a folder, or in all beneath it",
        text: "\
Prints the counts of names and free pages, then inode, size and name of each name
in the folder PATH, or in the root, in list order. A folder's name ends in /, and
its size is its total: the bytes of all files beneath it, each once for each name.
Of a file PATH its own line is printed. On a terminal, control bytes and bytes that
are no UTF-8 are shown as \\xNN; elsewhere names are written as they are.",
        options: &[Choice {
            name: "-R",
            value: None,
            text: "list the names in all folders beneath too, as paths; a folder comes before\n                  \
                   what is in it",
        }],
        example: "office ls day.vol north -R",
        least: 1,
        most: 2,
        run: look::ls,
    },
    Command {
        name: "du",
        forms: &["VOLUME [PATH]"],
        summary: "prints the totals of folders",
        text: "\
Prints the total of each folder beneath the folder PATH, or beneath the root, and
last its own: the bytes of all files beneath it, each once for each name. Of a file
PATH its size is printed. Paths are shown as ls shows them.",
        options: &[],
        example: "office du day.vol north",
        least: 1,
        most: 2,
        run: look::du,
    },
    Command {
        name: "cat",
        forms: &["VOLUME PATH.."],
        summary: "prints files",
        text: "Prints the bytes of each file on standard output.",
        options: &[],
        example: "office cat day.vol north/arrivals.txt",
        least: 2,
        most: usize::MAX,
        run: get::cat,
    },
    Command {
        name: "mv",
        forms: &["VOLUME OLD NEW [--cut GROUP]"],
        summary: "renames a file or a folder, or moves it into a folder",
        text: "\
Renames OLD to NEW, in the same folder or another. If NEW is a folder, OLD goes
into it under its own name. A file that has the new name loses it, and goes if it
has no other; a folder is not replaced, and a folder replaces nothing. If both
names lead to one file, nothing changes. No folder can go into itself or a folder
beneath it. NEW cannot be named \".\" or \"..\", but OLD can. A move to another folder
leaves as many pages free as put does. Where there is no room, mv cleans logs
first, if that helps, and says which.",
        options: &[CUT],
        example: "office mv day.vol fresh.txt north/arrivals.txt",
        least: 3,
        most: 3,
        run: names::mv,
    },
    Command {
        name: "ln",
        forms: &["VOLUME OLD NEW [--cut GROUP]"],
        summary: "gives a file one more name",
        text: "\
Gives the file OLD the name NEW too, in the same folder or another. If NEW is a
folder, the file gets its own name there. The new name must not stand, and cannot
be \".\" or \"..\". A folder has one name only. As many pages stay free as with put.
Where there is no room, ln cleans logs first, if that helps, and says which.",
        options: &[CUT],
        example: "office ln day.vol north/arrivals.txt gate.txt",
        least: 3,
        most: 3,
        run: names::ln,
    },
    Command {
        name: "rm",
        forms: &["VOLUME PATH.. [-r] [--cut GROUP]"],
        summary: "removes names; a file left without a name goes",
        text: "\
Removes each PATH; a file left without a name goes. A folder is removed only with
-r, with all that is in it. If one of them is refused, none is removed. A power cut
leaves the first ones removed. Where there is no room, rm cleans logs first, if
that helps, and says which.",
        options: &[
            Choice {
                name: "-r",
                value: None,
                text: "remove folders too, with all that is in them, from the leaves up",
            },
            CUT,
        ],
        example: "office rm day.vol north/cancelled.txt",
        least: 2,
        most: usize::MAX,
        run: names::rm,
    },
    Command {
        name: "mkdir",
        forms: &["VOLUME PATH.. [-p] [--cut GROUP]"],
        summary: "makes folders",
        text: "\
Makes each PATH a folder. If one of them is refused, none is made. A power cut
leaves the first ones made. No folder can get the name \".\" or \"..\". As many pages
stay free as with put. Where there is no room, mkdir cleans logs first, if that
helps, and says which.",
        options: &[
            Choice {
                name: "-p",
                value: None,
                text: "make the folders above it too that are missing; one that stands stays",
            },
            CUT,
        ],
        example: "office mkdir day.vol -p north/week1",
        least: 2,
        most: usize::MAX,
        run: folders::mkdir,
    },
    Command {
        name: "rmdir",
        forms: &["VOLUME PATH.. [--cut GROUP]"],
        summary: "removes folders in which no name stands",
        text: "\
Removes each PATH, a folder in which no name stands. If one of them is refused,
none is removed. A power cut leaves the first ones removed. Where there is no room,
rmdir cleans logs first, if that helps, and says which.",
        options: &[CUT],
        example: "office rmdir day.vol north/week1 north",
        least: 2,
        most: usize::MAX,
        run: folders::rmdir,
    },
    Command {
        name: "truncate",
        forms: &["VOLUME PATH SIZE [--cut GROUP]"],
        summary: "cuts or lengthens a file to a size",
        text: "\
Cuts or lengthens the file to SIZE bytes, at most 65536. What is added reads as
zeros. If it takes pages, as many stay free as with put. Where there is no room,
truncate cleans logs first, if that helps, and says which.",
        options: &[CUT],
        example: "office truncate day.vol north/arrivals.txt 0",
        least: 3,
        most: 3,
        run: names::truncate,
    },
    Command {
        name: "clean",
        forms: &["VOLUME [PATH..] [--cut GROUP]"],
        summary: "writes logs anew, to free pages",
        text: "\
Writes the logs of these files and folders anew, with only the entries that they
need; / is the root, and a folder's log is only its own. With no PATH, the logs of
the root and of every file and folder. Says the free pages before and after. A log
for which there is no room is skipped, which is said, and the exit status is then 1.
Commands that need room clean by themselves.",
        options: &[CUT],
        example: "office clean day.vol / north",
        least: 1,
        most: usize::MAX,
        run: clean::run,
    },
    Command {
        name: "recover",
        forms: &["VOLUME [--cut GROUP]"],
        summary: "closes the journal after a power cut",
        text: "\
Puts the old values of an open journal back and closes it, then removes a
.office-part that a killed put left; says what it did.",
        options: &[CUT],
        example: "office recover day.vol",
        least: 1,
        most: 1,
        run: recover::run,
    },
    Command {
        name: "check",
        forms: &["VOLUME"],
        summary: "says whether the volume is accepted, and if not, why",
        text: "\
Says whether the volume is accepted, with exit status 0; or how it is refused and
why, with exit status 1. Where no name can be removed and no log cleaned for want
of a page, it also says how the files get into a new volume.",
        options: &[],
        example: "office check day.vol",
        least: 1,
        most: 1,
        run: check::run,
    },
    Command {
        name: "map",
        forms: &["VOLUME [--svg FILE] [--force]"],
        summary: "draws the pages: fixed, free, log and data",
        text: "\
Draws which page serves for what, and for which file or folder, by path. Marks the
longest stretch of free pages; where several are equally long, the first of them.
On a terminal each inode has a colour (not where NO_COLOR is set); COLUMNS is the
width, else 80.",
        options: &[
            Choice {
                name: "--svg",
                value: Some("FILE"),
                text: "write a drawing to this file instead; - is standard output",
            },
            REPLACE,
        ],
        example: "office map day.vol --svg day.svg",
        least: 1,
        most: 1,
        run: look::map,
    },
    Command {
        name: "gaps",
        forms: &["VOLUME"],
        summary: "lists the stretches of free pages, the longest and the total",
        text: "\
Prints the pages and the length of each stretch of free pages, in page order and
each as long as it can be; then the longest, and the total, which is the count of
free pages that ls and check give. Where several stretches are equally long, the
longest is the first of them.",
        options: &[],
        example: "office gaps day.vol",
        least: 1,
        most: 1,
        run: look::gaps,
    },
    Command {
        name: "log",
        forms: &["VOLUME [PATH | --inode K]"],
        summary: "tells the log of a file or a folder in words",
        text: "\
Tells the entries of a log in words: of the file or the folder PATH, of inode K,
or, with neither, of the root.",
        options: &[Choice {
            name: "--inode",
            value: Some("K"),
            text: "the log of this inode; 0 is the root",
        }],
        example: "office log day.vol north/arrivals.txt",
        least: 1,
        most: 2,
        run: look::log,
    },
];
