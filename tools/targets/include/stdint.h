/* What include/pagunlit.h needs of <stdint.h>, for any processor: the kit's compiler comes without headers. */
#ifndef TARGETS_STDINT_H
#define TARGETS_STDINT_H

typedef __UINT8_TYPE__ uint8_t;
typedef __UINT32_TYPE__ uint32_t;
typedef __UINT64_TYPE__ uint64_t;

#endif
