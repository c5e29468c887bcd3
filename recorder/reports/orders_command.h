/*
 * The command `orders`: what is done with files of orders.
 */
#ifndef RECORD_ORDERS_COMMAND_H
#define RECORD_ORDERS_COMMAND_H

/* Its status. `here` is the folder of the recorder's sources, and the words are those after the command's name. */
int orders_command(const char *here, char **words);

#endif
