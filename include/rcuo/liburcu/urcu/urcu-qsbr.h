/* Found before liburcu's header of this name: its QSBR flavour over the managed runtime (rcuo/urcu-qsbr.h). */
#pragma GCC system_header
#include <urcu/pointer.h>
#include <urcu/wfcqueue.h>

#ifdef _LGPL_SOURCE
#undef _LGPL_SOURCE
#define RCUO_LGPL_SOURCE
#endif

#include_next <urcu/urcu-qsbr.h>

#ifdef RCUO_LGPL_SOURCE
#undef RCUO_LGPL_SOURCE
#define _LGPL_SOURCE
#endif
