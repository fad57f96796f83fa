/* The version of these programs. That of the unit's interface is DEORASAENG_VERSION; unit.h says which one they are written for. */
#ifndef GATEWAY_VERSION_H
#define GATEWAY_VERSION_H

#define GATEWAY_VERSION "1.0"

#endif
