#include "help.h"

const char help_all[] =
    "usage: himzolven COMMAND IMAGE ..\n"
    "\n"
    "Keeps a disk array with the OI-RAID layout in one file, an image. All work on its disks is done by\n"
    "the proved library.\n"
    "\n"
    "  create     makes an image, formatted\n"
    "  status     tells its sizes, the lost disks, and whether a call was cut off\n"
    "  write      writes bytes from standard input\n"
    "  read       reads bytes to standard output\n"
    "  fail       loses disks: marks them and puts noise over them\n"
    "  plan       tells which units are read to restore one disk\n"
    "  rebuild    restores the lost disks\n"
    "  recover    makes the image whole after a call that was cut off\n"
    "  audit      counts the sets that don't XOR to zero\n"
    "  refusals   lists the reasons by which the library refuses\n"
    "\n"
    "`himzolven COMMAND --help` tells more, with examples. `himzolven --version` tells the versions.\n"
    "Numbers are decimal; numbers of bytes may end with K, M or G (1024, 1024 K, 1024 M).\n"
    "\n"
    "exit codes:\n"
    "  0  done\n"
    "  1  refused by the library: number, place and what they mean are on standard error\n"
    "  2  the command line or a design file is not what was expected\n"
    "  3  the file is not an image, or a file can't be read or written\n"
    "  4  the audit found bad sets\n"
    "  5  held back: the image exists already, or a call on it was cut off (run recover)\n"
    "  6  another process has the image\n"
    "  7  stopped by a signal, between two calls of the library\n";

const char help_create[] =
    "usage: himzolven create IMAGE --groups V --disks-per-group G [--unit BYTES] [--design FILE] [--force]\n"
    "\n"
    "Makes an image of V groups of G disks, all bytes 0. It appears when all of it is on the disk.\n"
    "\n"
    "  --groups V           groups of disks; a design is held for 7, 13, 21, 31, 57, 73 and 91\n"
    "  --disks-per-group G  a prime from 2 to 13, at least the groups in a row of the design\n"
    "  --unit BYTES         bytes in a unit, 1 to 4096; 4096 if not given\n"
    "  --design FILE        another design: one row in a line, group numbers with blanks or commas\n"
    "                       between; what follows # does not count\n"
    "  --force              replaces a file that is there\n"
    "\n"
    "examples:\n"
    "  himzolven create shelf.img --groups 7 --disks-per-group 3\n"
    "  himzolven create hall.img --groups 13 --disks-per-group 5 --unit 512\n"
    "  printf '0 1\\n0 2\\n1 2\\n' >rows.txt\n"
    "  himzolven create small.img --groups 3 --disks-per-group 2 --design rows.txt\n";

const char help_status[] =
    "usage: himzolven status IMAGE\n"
    "\n"
    "Tells design, sizes, user bytes, the disks that are marked as lost and whether they can't be rebuilt,\n"
    "and whether a call was cut off. It does not read the disks; audit does.\n"
    "\n"
    "example:\n"
    "  himzolven status shelf.img\n";

const char help_write[] =
    "usage: himzolven write IMAGE --unit N [--offset O] [--no-sync] <bytes\n"
    "       himzolven write IMAGE --at BYTE [--no-sync] <stream\n"
    "\n"
    "Writes standard input into user unit N from offset O on (0 if not given), or into consecutive user\n"
    "units from user byte BYTE on. Each user unit is one write of the library, which refuses it if one of\n"
    "its four disks is lost. Input from a file is written only if all of it will be accepted. Input from\n"
    "a pipe is written as it comes; a refusal then tells how much was written before.\n"
    "\n"
    "  --no-sync   waits for the disk once, at the end, and not for each user unit: faster. The image is\n"
    "              safe if the tool is killed, but not if the power goes meanwhile.\n"
    "\n"
    "examples:\n"
    "  printf 'shot record 83' | himzolven write shelf.img --unit 83 --offset 100\n"
    "  himzolven write shelf.img --at 8K <records\n";

const char help_read[] =
    "usage: himzolven read IMAGE --unit N [--offset O] [--length L] >bytes\n"
    "       himzolven read IMAGE --at BYTE [--length L] >stream\n"
    "\n"
    "Reads L bytes of user unit N from offset O on, or of consecutive user units from user byte BYTE on;\n"
    "without --length all that follow in the unit or in the image. If one of the disks is lost, nothing\n"
    "is read.\n"
    "\n"
    "examples:\n"
    "  himzolven read shelf.img --unit 83 --offset 100 --length 14\n"
    "  himzolven read shelf.img --at 8K --length 64K >records\n";

const char help_fail[] =
    "usage: himzolven fail IMAGE DISK .. [--seed N] [--force]\n"
    "\n"
    "Loses disks, for a trial: marks them as lost, then puts noise over all their bytes. Refused, with\n"
    "nothing done, if a rebuild would not bring back all of them and those lost before.\n"
    "\n"
    "  --seed N   other noise; 0 if not given\n"
    "  --force    loses them even if they can't be rebuilt\n"
    "\n"
    "example:\n"
    "  himzolven fail shelf.img 0 1 2\n";

const char help_plan[] =
    "usage: himzolven plan IMAGE DISK [--lines]\n"
    "\n"
    "Tells which units of other disks are read to restore each unit of one disk.\n"
    "\n"
    "  --lines   one source in a line: unit restored, disk, unit\n"
    "\n"
    "example:\n"
    "  himzolven plan shelf.img 9\n";

const char help_rebuild[] =
    "usage: himzolven rebuild IMAGE\n"
    "\n"
    "Restores the disks that are marked as lost from the others. Any three come back, and many larger\n"
    "losses. If not all can come back it is refused and nothing is changed.\n"
    "\n"
    "example:\n"
    "  himzolven rebuild shelf.img\n";

const char help_recover[] =
    "usage: himzolven recover IMAGE\n"
    "\n"
    "After a call that was cut off (a crash, kill -9). A rebuild begins again. Of a write, the disks of\n"
    "the three parity units are marked as lost and rebuilt, with those lost before: each byte of its\n"
    "range is then the old or the new one, and every other user byte is as it was. If the library refuses\n"
    "that together with the disks lost before, one of the parity disks is kept and the data disk is\n"
    "rebuilt. If it refuses that too, nothing is changed.\n"
    "\n"
    "example:\n"
    "  himzolven recover shelf.img\n";

const char help_audit[] =
    "usage: himzolven audit IMAGE\n"
    "\n"
    "Reads all disks, lost ones too, and counts the sets that don't XOR to zero. Exit code 4 if there are\n"
    "any.\n"
    "\n"
    "example:\n"
    "  himzolven audit shelf.img\n";

const char help_refusals[] =
    "usage: himzolven refusals\n"
    "\n"
    "Lists the numbers by which the library refuses, what they mean, and what their place names.\n"
    "\n"
    "example:\n"
    "  himzolven refusals\n";
