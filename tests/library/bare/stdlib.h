#pragma once
__attribute__((noreturn)) void exit(int);
unsigned long strtoul(const char *, char **, int);
