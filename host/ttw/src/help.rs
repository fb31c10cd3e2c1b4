//! What `ttw help` prints.

/// `ttw --help`.
pub const OVERVIEW: &str = "\
ttw prints labels from Royal Mail's files and cuts packs for handsets.

  ttw check  CHANGES1 CHANGES2              are both files accepted?
  ttw codes  CHANGES1 CHANGES2              outward codes with live views
  ttw labels (CHANGES1 CHANGES2 [--view N | --code AB1] | --csv FILE)
             [--nth K] [--count N] [--out FILE]
  ttw pack   CHANGES1 CHANGES2 (--code AB1 | --all) --out FOLDER
  ttw show   PACK [--nth K [--count N]] [--suffix | --sectors] [--out FILE]
  ttw csv    CHANGES1 CHANGES2 [--out FILE] the views as CSV PAF
  ttw extract CHANGES1 CHANGES2 (--code AB1.. | --area AB.. | --all)
             [--most N] [--line-ends] --out FOLDER
                                            parts of longer files
  ttw unspace FILES..                       archived files, rewritten
  ttw book   new|add|list|labels|pack|tidy BOOK [FILES..] [OPTIONS]
                                            an address book over the months
  ttw main   check|codes|labels|pack|csv|extract FILES.. [OPTIONS]
                                            the same of a Mainfile set

  ttw help TOPIC           a command, or: files, refusals, status
  ttw help --man, --bash   the same as a man page; completion for bash
  ttw --version

Exit status: 0 done, 1 something was refused, 2 could not.
";

/// The topics that are not commands.
pub const TOPICS: [(&str, &str); 3] =
    [("files", FILES), ("refusals", REFUSALS), ("status", STATUS)];

pub const CHECK: &str = "\
ttw check CHANGES1 CHANGES2

Says how many records both files have, and how many views the point file has.
A refused file is told with the record at which its first fault stands; where
both are refused, both are told. Where each has the other's header, they look
swapped, and that is told too.
";

pub const CODES: &str = "\
ttw codes CHANGES1 CHANGES2

Prints each outward code that has live views, rising, and how many. A view is
live if its amendment letter is I or C.
";

pub const LABELS: &str = "\
ttw labels (CHANGES1 CHANGES2 [--view N | --code AB1] | --csv FILE)
           [--nth K] [--count N] [--out FILE]

Prints labels. Without options those of all views, each under its number and
amendment letter; with --code those of the live views in that code; with --csv
those of the rows of a CSV file, each under its number.

  --view N     the label of view N alone
  --code AB1   the live views of an outward code
  --csv FILE   a CSV file, not two Changes files; - is one on standard input
  --nth K      with --code or --csv: the label of the K-th of them alone
  --count N    with --view or --nth: so many labels from there on
  --out FILE   into a file, not to standard output

A single label, and so many with --count, are printed as they stand, one behind
the other, ready to be sent on; a refused label ends them. In a list a refused
label says why in its place, and the list goes on.

A file is written as a pack is, whole or not at all: see ttw help pack. Where a
refused label ends the labels, or they cannot be written, an older file stays as
it was. It replaces a plain file alone, no link, device or pipe. With --out -
labels are printed as without it.
";

pub const PACK: &str = "\
ttw pack CHANGES1 CHANGES2 (--code AB1 | --all) --out FOLDER

Cuts the pack of an outward code into FOLDER/AB1.pack, with --all one for each
code that has live views. The folder is made where it is missing.

A pack with one label that cannot be printed is not cut: the code is refused,
with the view to mend, and the other codes go on. So they do where a pack cannot
be written; the exit status is then 2. A pack file is written under another name
first and renamed when it is whole and on the disk, so that a refused code, a
full disk or a kill leaves an older pack as it was. After a kill a file such as
.AB1.pack.3f09c1d2a47be586.part may stay behind; it can be deleted. A pack that
replaces an older one has its mode and, where this may be given, its owner.
";

pub const SHOW: &str = "\
ttw show PACK [--nth K [--count N]] [--suffix | --sectors] [--out FILE]

Checks a pack and prints the labels of its points, numbered from 1. Where - is
given for the pack, it is read from standard input.

  --nth K      the label of point K alone
  --count N    with --nth: so many labels from there on, one behind the other
  --suffix     the delivery point suffix too, in a line before each label
  --sectors    how many points each sector has, and no label: ten lines, one for
               each inward digit; stands alone
  --out FILE   into a file, not to standard output: see ttw help labels

A pack of edition 1 has no suffixes, and with --suffix its first point is
refused. Each point costs checks of the whole pack then, so that a long pack
takes its time.
";

pub const CSV: &str = "\
ttw csv CHANGES1 CHANGES2 [--out FILE]

Writes a row of CSV PAF for each view, live or not, in file order: sixteen
fields with commas between them, ended by CR LF, nothing quoted, no header. What
no view has, the UDPRN, is empty.

  --out FILE   into a file, not to standard output: see ttw help labels

A view that no row can carry, because a text has a comma or a double quote or a
thoroughfare is too long with its descriptor, is told on standard error with its
number, and so is one whose label is refused. It is left out, the others go on,
and the exit status is 1. Each such view costs one more check of the files.

ttw labels --csv reads such a file. Of a view with a sub building, a number and
no building name a row does not say whether both stand together, as in 12A.
";

pub const EXTRACT: &str = "\
ttw extract CHANGES1 CHANGES2 (--code AB1.. | --area AB.. | --all)
            [--most N] [--line-ends] --out FOLDER

Cuts two files of any length into parts that the other commands accept. A part
is a folder, FOLDER/AB1 or FOLDER/AB1-AB25, with the files changes1 and
changes2: all point records of some outward codes, and all table rows for the
keys that these refer to, as they stand in the files; counts are made right. So
a label or a pack of a code is the same from its part as from the whole.

  --code AB1..   these outward codes, commas between them
  --area AB..    all codes that begin with these letters and then a digit
  --all          all codes
  --most N       parts of at most N records a file, not of 20,000
  --line-ends    takes out the line ends that some programs add to each record
                 when they transfer a file

Codes are put together as they rise, as many as there is room for. A code that
is too long for a part alone is told, and split between views into AB1.1, AB1.2
and so on: the labels of a piece are right, but a pack from it would lack the
points of the others. The folder has to be new or empty, so that parts of two
issues never stand side by side. Both files are checked record by record before
anything is written. A part is written under another name, read back and
checked, its records and live views in each code are compared with those of the
files, and then it is renamed: a full disk or a kill leaves whole parts or none.
After a kill a folder such as .AB1.3f09c1d2a47be586.part may stay behind; it can
be deleted.
";

pub const UNSPACE: &str = "\
ttw unspace FILES..

Rewrites archived Changes files whose header or trailer has spaces for its
identifier. FILE stays as it is, and FILE.new is written: zero bytes for such an
identifier of the header, bytes 255 for one of the trailer, and every other byte
as it stands in FILE. So FILE.new is accepted exactly where FILE is, with the
same labels.

A table file or a point file of any length is taken, told by the name in its
header, CHANGES1 or CHANGES2. For each is printed which identifiers were
rewritten; where none was, FILE.new is FILE over again, and so it is where FILE
is not two or more whole records. Any other file is told and left alone, and the
exit status is 1: a Mainfile set keeps its spaces. A file that is missing or
cannot be read is told and skipped, and so is one that cannot be written; the
exit status is then 2.

FILE.new is written as a pack is, whole or not at all: see ttw help pack. It
replaces a plain file alone, no link, device or pipe.
";

pub const BOOK: &str = "\
ttw book (new | add | list | labels | pack | tidy) BOOK [CHANGES1 [CHANGES2]]
         [--stop] [--place N | --code AB1 [--nth K]] [--count N] [--all]
         [--out PLACE]

Keeps an address book, which joins the months: a file of 86,530 bytes with up to
256 delivery points, in the order in which they were inserted. Its first is
place 1.

  new      BOOK: makes an empty one, where nothing of that name stands
  add      BOOK CHANGES1 CHANGES2: does what a month says, view by view: I adds a
           delivery point behind the last, D removes it, B and the C behind it
           replace it where it stands. Takes --stop
  list     BOOK CHANGES1: the labels of all that are present, each under its
           place. Takes --code and --out
  labels   BOOK CHANGES1: the same one behind the other, ready to be sent on; a
           refused label ends them. Takes --place, --code, --nth, --count, --out
  pack     BOOK CHANGES1: takes --code, --all and --out, see ttw help pack
  tidy     BOOK: moves places 1, 2 and so on into the first slots of the file;
           what the book says stays

An event that is refused, 17 to 20, is told with the number of its view, the
others go on, and the exit status is 1. With --stop the first refused one ends
the run, and the book stays as it was. A delivery point that moves to another
postcode may have its B and its C apart in the file: both are refused with 19.

A book is written as a pack is, whole or not at all: see ttw help pack. Of two
runs that change it at once the second waits until the first is done, so that no
event is lost. It has to be a plain file, no link.
";

pub const MAIN: &str = "\
ttw main (check | codes | labels | pack | csv | extract) FILES..
         [--view N | --code AB1 [--nth K]] [--count N] [--area AB] [--all]
         [--most N] [--line-ends] [--out PLACE]

Does of a Mainfile set what the commands of these names do of two Changes files.
FILES are the seven files of the set in any order, or the one folder that holds
them. What each file is, its header says, whatever its name; a file that is
missing or is given more than once is named. Each is read once.

  check    how many records each file has, and how many views there are
  codes    each outward code, and how many addresses it has
  labels   takes --view, --code, --nth, --count and --out: see ttw help labels
  pack     takes --code, --all and --out: see ttw help pack
  csv      takes --out: see ttw help csv
  extract  takes --code, --area, --all, --most, --line-ends and --out: see ttw
           help extract

For extract the addresses may stand in several files: each with a header and a
trailer, or the header in the first and the trailer in the last alone. They are
put in order by their first address, since addresses rise by postcode. They are
read once, and parts are written on the way, of up to 1,000,000 records a file:
where one is damaged, the parts before it stay, whole. It keeps some 4 bytes of
each row, the addresses of two codes and, to check it, the part.

A view is a record of the address file, numbered from 1, and each is live: there
are no amendment letters. What else stands in a folder is passed over, as long
as none of the seven is missing.
";

const FILES: &str = "\
CHANGES1 is the table file: localities, thoroughfares, descriptors, building
names and sub building names, 169 bytes a record. CHANGES2 is the point file
(Single Changes too): delivery points and organisations, 168 bytes a record.
Both come without line ends, with a header first and a trailer last.
A Mainfile set is seven files: localities (151 bytes a record), thoroughfares
(68), descriptors (30), buildings (58), sub buildings (38), organisations (153)
and addresses (88), each with a header and a trailer and without line ends.
A PACK is a file that ttw pack has cut; - is one on standard input.
A BOOK is a file that ttw book new has made.
A CSV file is CSV PAF: a row for each delivery point, 16 fields with commas
between them, ended by CR LF, nothing quoted, no header, shorter than 4 GiB; -
is one on standard input.
";

const REFUSALS: &str = "\
 1  a file's length is not that of 2 to 20,000 whole records; of a Mainfile set
    2 to 1,000,000
 2  its header is malformed
 3  its trailer is malformed, or has another count
 4  a record is malformed; the byte is counted from the first of the record
 5  a record is not above the record before it: by its first 24 bytes in a table
    file, by its first 42 in a point file; in a Mainfile set by key, an
    organisation by type and key, an address by postcode, address key and
    organisation key
 6  a record lacks its organisation record, or is a stray one
 7  no view or point of that number
 8  a forbidden combination: 1 sub building without building name or number,
    2 dependent thoroughfare without thoroughfare, 3 descriptor without its
    thoroughfare
 9  a key has no row in force in the table file (none at all, or the last one has
    the letter B or D), or the locality's key is zero: 1 locality, 2 thoroughfare,
    3 descriptor, 4 dependent thoroughfare, 5 its descriptor, 6 building name,
    7 sub building; in a Mainfile set a key has no row in its file, and 8: an
    address has no row for the organisation that it needs
10  the room is too short
11  a pack is damaged: 1 its end, 2 its rows, 3 its points, 4 the counts of its
    sectors
12  not an outward code
13  a pack of this edition has no suffix
14  a row of a CSV file is malformed, first at that field; field 17 is what
    stands behind the last one
15  a field is longer than CSV PAF allows, or has a comma or a double quote
17  a delivery point is inserted that is present in the book
18  a delivery point is deleted or changed that is not present
19  a B whose next view is not the C of the same delivery point, or a C that
    stands so
20  all 256 slots of the book are in use
27  an inward digit is above 9
28  these bytes are not a book
";

const STATUS: &str = "\
0  done
1  something was refused; what and why is told
2  could not: wrong usage, or a file could not be read or written, or what was
   to be printed could not be, or no memory was left
";
