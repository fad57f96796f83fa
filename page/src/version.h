/* The version of the service page. */
#ifndef PAGE_VERSION_H
#define PAGE_VERSION_H

#define PAGE_VERSION "1.0"

#endif
