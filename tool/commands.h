/* The commands. Each takes the words after its name, which end with NULL, and returns an exit code. */
#ifndef COMMANDS_H
#define COMMANDS_H

int run_create(char **words);
int run_status(char **words);
int run_write(char **words);
int run_read(char **words);
int run_fail(char **words);
int run_plan(char **words);
int run_rebuild(char **words);
int run_recover(char **words);
int run_audit(char **words);
int run_refusals(char **words);

#endif
