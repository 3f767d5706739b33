/*
 * rcuo/urcu-qsbr.h: liburcu's QSBR flavour over the managed runtime. A program of that flavour includes this in place of
 * <urcu-qsbr.h> or <urcu/urcu-qsbr.h>; or it is compiled unchanged with the folder rcuo/liburcu before liburcu's own headers. It
 * is linked with `-lrcuo-urcu-qsbr -lrcuo-runtime -lrcuo -pthread` in place of `-lurcu-qsbr`.
 *
 * The declarations are liburcu's own, of liburcu-dev 0.13 or later, as are lists, pointers and atomics. Its inlined readers,
 * which _LGPL_SOURCE chooses, are left out: they report to words of liburcu's.
 */
#ifndef RCUO_URCU_QSBR_H
#define RCUO_URCU_QSBR_H

/* What may be inlined comes first, and the flavour without. */
#include <urcu/pointer.h>
#include <urcu/wfcqueue.h>

#ifdef _LGPL_SOURCE
#undef _LGPL_SOURCE
#define RCUO_LGPL_SOURCE
#endif

#define URCU_API_MAP
#include <urcu/urcu-qsbr.h>

#ifdef RCUO_LGPL_SOURCE
#undef RCUO_LGPL_SOURCE
#define _LGPL_SOURCE
#endif

#endif
