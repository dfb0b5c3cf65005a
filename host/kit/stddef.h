/* The kit's C library comes without headers. Those in this folder declare what the programs beside it use, for x86-64 Linux. */
#pragma once
typedef __SIZE_TYPE__ size_t;
#define NULL ((void *)0)
