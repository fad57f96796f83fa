/* What both ends of the status socket have to know. */
#ifndef GATEWAY_STATUS_SCHEMA_H
#define GATEWAY_STATUS_SCHEMA_H

/* A member that goes, or means another thing, makes another number; one that is added does not. */
#define STATUS_SCHEMA 1

/* A document is no longer than this. */
#define STATUS_BYTES 524288

#endif
