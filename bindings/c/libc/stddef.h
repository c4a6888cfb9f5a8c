/* These few headers stand in for the machine's when the kit's clang compiles the library's C
 * (-nostdinc -isystem libc), so that its object doesn't depend on the machine's: glibc's and musl's
 * calls on 64-bit Linux. */
#pragma once
typedef __SIZE_TYPE__ size_t;
#define NULL ((void *)0)
