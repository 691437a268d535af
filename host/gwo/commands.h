/* The commands of gwo, a file each. argv[0] is what the command is called in messages: gwo and its name. */
#ifndef COMMANDS_H
#define COMMANDS_H

int command_run(int argc, char **argv);
int command_check(int argc, char **argv);
int command_explain(int argc, char **argv);
int command_compare(int argc, char **argv);
int command_serve(int argc, char **argv);
int command_rewrite(int argc, char **argv);
int command_sfdp(int argc, char **argv);
int command_pins(int argc, char **argv);

#endif
