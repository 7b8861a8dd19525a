; The traps by their names. A call of -1 - k is a call of trap k.
code
equ trap_Print -1
equ trap_Error -2
equ trap_Milliseconds -3
equ trap_Argc -9
equ trap_Argv -10
equ memset -101
equ memcpy -102
equ strncpy -103
