#pragma once
typedef unsigned char uint8_t;
typedef unsigned int uint32_t;
typedef unsigned long uint64_t;
typedef unsigned long uintptr_t;
#define SIZE_MAX 18446744073709551615ul
#define UINT64_MAX 18446744073709551615ul
