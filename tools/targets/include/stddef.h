/* What include/pagunlit.h needs of <stddef.h>, for any processor: the kit's compiler comes without headers. */
#ifndef TARGETS_STDDEF_H
#define TARGETS_STDDEF_H

typedef __SIZE_TYPE__ size_t;

#endif
