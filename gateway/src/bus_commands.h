/* What deorasaeng-bus does on buses without CAN. Each prints what is wrong on standard error and gives the program's status. */
#ifndef GATEWAY_BUS_COMMANDS_H
#define GATEWAY_BUS_COMMANDS_H

#include <stdint.h>

#define BUSES_MAX 8

/* 0: done; 1: a bus ended or a frame was not sent; 2: wrong words, or no bus there. */
enum bus_exit { BUS_DONE = 0, BUS_FAILED = 1, BUS_WRONG = 2 };

/* bus_serve.c: serves buses until SIGTERM or SIGINT; prints how many frames stood on each then, and at SIGUSR1. */
int bus_serve(uint32_t bitrate, int count, char *paths[]);

/* bus_clients.c: prints what stands on the buses, until SIGTERM or SIGINT or until they end. */
int bus_dump(int count, char *paths[]);

/* bus_clients.c: sends frames, each once the one before stood on the bus. */
int bus_send(const char *path, int count, char *frames[]);

/* bus_clients.c: sends the frames of a log from standard input, at its times. */
int bus_play(void);

#endif
