/* What the test needs of <stdint.h>, for a compiler that comes without headers. */
#ifndef BARE_STDINT_H
#define BARE_STDINT_H

typedef __UINT8_TYPE__ uint8_t;
typedef __UINT64_TYPE__ uint64_t;

#define UINT64_MAX __UINT64_MAX__

#endif
