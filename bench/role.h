// Who makes the calls. Those of another libpagunlit.a, whose names start with other_ (bench/run says which it is), take no role
// if it is from before document 02 (n): WITHOUT_ROLE=1 says so to bench/run.
#ifndef BENCH_ROLE_H
#define BENCH_ROLE_H

#include "pagunlit.h"

enum { ROLE = PAGUNLIT_PHARMACIST };

#ifdef WITHOUT_ROLE
#define OTHER_ROLE
#define OTHERS_ROLE
#else
#define OTHER_ROLE uint32_t role,
#define OTHERS_ROLE ROLE,
#endif

#endif
