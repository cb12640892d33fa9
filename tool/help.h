/* The help texts. */
#ifndef HELP_H
#define HELP_H

extern const char help_all[], help_create[], help_status[], help_write[], help_read[], help_fail[], help_plan[], help_rebuild[],
    help_recover[], help_audit[], help_refusals[];

#endif
