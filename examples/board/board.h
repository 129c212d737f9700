/* What main.c asks of the board, and the board of main.c. */
#ifndef BOARD_H
#define BOARD_H

#include <stdint.h>

int board_main(void);
void say(const char *text);
void say_number(uint32_t number);

#endif
