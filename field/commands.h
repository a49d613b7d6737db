/* The sub-commands. Each takes its own words, its name first, and answers the status. */
#ifndef COMMANDS_H
#define COMMANDS_H

int command_decode(int argc, char **argv);
int command_watch(int argc, char **argv);
int command_why(int argc, char **argv);
int command_import(int argc, char **argv);
int command_cell(int argc, char **argv);
int command_replay(int argc, char **argv);
int command_mend(int argc, char **argv);

#endif
