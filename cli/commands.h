/* The commands. Each takes the words after its name and gives the exit status. */
#ifndef COMMANDS_H
#define COMMANDS_H

int check_command(int count, char **words);
int font_command(int count, char **words);
int pack_command(int count, char **words);
int show_command(int count, char **words);
int paint_command(int count, char **words);
int play_command(int count, char **words);
int pulse_command(int count, char **words);
int help_command(int count, char **words);

/* Prints the help on a command. */
int help_on(const char *command);

#endif
