/* Stands in for the C library's header, which the Rattle kit does not have: what the header and the example use. */
#pragma once
typedef __SIZE_TYPE__ size_t;
#define NULL ((void *)0)
#define offsetof(type, field) __builtin_offsetof(type, field)
