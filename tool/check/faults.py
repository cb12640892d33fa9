"""Faults that are planted in a copy of the tool, each with the test that must find it."""
import commands
import contents
import cutoffs
import images
import power

# the file, what stands there once, what takes its place, the test
FAULTS = [
    ("transfer.c", "at % opened->geometry.u, room", "at % opened->geometry.u / 2 * 2, room", contents.sessions),
    ("transfer.c", "*done += code == EXIT_DONE ? next.length : 0;", "*done += next.length;", contents.sessions),
    ("transfer.c", "int code = try_stream(opened, TO_STORE, at, length);", "int code = EXIT_DONE;", contents.sessions),
    ("transfer.c", "if (answer.refusal != HIMZOLVEN_ACCEPTED) {\n        return refused(opened, to, answer);",
     "if (answer.refusal > HIMZOLVEN_SHORT_LIST) {\n        return refused(opened, to, answer);", commands.call_refusals),
    ("transfer.c", "work_begin(length, \"asking about user bytes from %\" PRIu64 \" on\", at);", "", commands.asking),
    ("transfer.c", "code == EXIT_DONE && done < length && !work_stopped()", "code == EXIT_DONE && done < length", commands.asking),
    ("transfer.c", "end = at + 1;", "", commands.call_refusals),
    ("transfer.c", "all.length > opened->geometry.u, answer", "false, answer", commands.call_refusals),
    ("disks.c", "memcpy(opened->state.marks, marks, sizeof marks);", "", contents.sessions),
    ("disks.c", "hit[disk] != 0 && i < disk_bytes", "hit[disk] != 0 && i < disk_bytes / 4", contents.sessions),
    ("disks.c", "|| force", "|| true || force", commands.call_refusals),
    ("words.c", "a = place / of->v, b = place % of->v", "b = place / of->v, a = place % of->v", commands.design_refusals),
    ("words.c", "disk == at.outer_disk ?", "disk == at.inner_disk ?", commands.call_refusals),
    ("help.c", "examples:\\n\"\n    \"  himzolven read", "\\n\"\n    \"  himzolven read", commands.helps),
    ("options.c", "value > UINT32_MAX / unit", "value * unit / unit != value", commands.wrong_lines),
    ("image.c", "crc32_of(opened->map, HEADER_CRC_AT) != get32", "crc32_of(opened->map, 32) == get32", images.wrong_images),
    ("image.c", "sizes.bytes != image_array_bytes", "sizes.bytes > image_array_bytes", images.wrong_images),
    ("image.c", "copy.sequence > opened->state.sequence", "copy.sequence < opened->state.sequence", images.one_copy),
    ("image.c", "access == TO_STORE ? LOCK_EX : LOCK_SH", "access == TO_READ ? LOCK_EX : LOCK_SH", images.locks),
    ("create.c", "    unlink(new);\n", "", images.creation),
    ("main.c", "if (!streams_taken()) {", "if (false && !streams_taken()) {", images.closed_streams),
    ("image.c", "return apart_from_streams(opened, &is);", "(void)apart_from_streams;\n    return EXIT_DONE;", images.own_stream),
    ("work.c", "terminal ? \"\\r\" : \" ..\\n\"", "terminal ? \"\\n\" : \" ..\\n\"", commands.progress),
    ("work.c", "    stopped = 1;", "    _exit(7);", images.interrupted),
    ("work.c", "handle(SIGXFSZ, SIG_IGN, 0);", "", images.too_large),
    ("cutoff.c", "size_t kept = 0; kept < PLACES", "size_t kept = 1; kept < PLACES", cutoffs.torn_writes),
    ("cutoff.c", "if (i != kept) {", "if (i != kept && i != 3) {", cutoffs.torn_writes),
    ("cutoff.c", "code == EXIT_DONE && opened", "code != EXIT_DONE && opened", cutoffs.torn_writes),
    ("cutoff.c", "size_t kept = 0; kept < PLACES", "size_t kept = 0; kept < 1", cutoffs.torn_and_lost),
    ("cutoff.c", "memcpy(chosen, marks, MARKS_MAX);\n    for", "memset(chosen, marks[0], MARKS_MAX);\n    for",
     cutoffs.torn_and_lost),
    ("transfer.c", "int code = image_commit(opened);", "int code = EXIT_DONE;", power.power_in_a_write),
    ("image.c", "opened->map_bytes - second);", "STATE_BYTES);", power.power_in_a_write),
    ("image.c", "copy.sequence != opened->state.sequence", "copy.sequence == opened->state.sequence", power.power_in_a_recovery),
    ("disks.c", "code = image_commit(opened);\n    code = code != EXIT_DONE ? code : spoil(opened, hit, seed);",
     "code = spoil(opened, hit, seed);\n    code = code != EXIT_DONE ? code : image_commit(opened);", power.power_in_a_loss),
    ("disks.c", "refused(opened, marks, answer) : image_end(opened);", "refused(opened, marks, answer) : image_settle(opened);",
     contents.sessions),
    ("disks.c", "choose_marks(opened, marks, chosen, &answer)", "try_rebuild(opened, memcpy(chosen, marks, MARKS_MAX), &answer)",
     cutoffs.torn_and_lost),
]
