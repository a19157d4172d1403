#pragma once
int printf(const char *, ...);
int scanf(const char *, ...);
