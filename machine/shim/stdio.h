/* Of the C library libx86emu names this. */
#pragma once
#include <stdarg.h>
#include <stddef.h>
int vsnprintf(char *text, size_t room, const char *form, va_list values);
