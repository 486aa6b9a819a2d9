/* Stands in for the C library's header, which the Rattle kit does not have: what the header, the example and tests/replay
 * use. */
#pragma once
typedef __UINT8_TYPE__ uint8_t;
typedef __UINT16_TYPE__ uint16_t;
typedef __UINT32_TYPE__ uint32_t;
typedef __UINT64_TYPE__ uint64_t;
