; Prints a greeting and the module's own words, each on a line, and returns their count.
lit
LABELV greeting
byte 1 104
byte 1 101
byte 1 108
byte 1 108
byte 1 111
LABELV line_end
byte 1 10
byte 1 0

bss
LABELV buffer
skip 64

code
; A local object, the number of the word, and room for three arguments.
proc vmMain 4 12
ADDRGP4 greeting
ARGP4
ADDRGP4 trap_Print
CALLI4
pop
ADDRLP4 0
CNSTI4 0
ASGNI4

LABELV $word
ADDRLP4 0
INDIRI4
ADDRGP4 trap_Argc
CALLI4
GEI4 $done
; argv(word, buffer, 64)
ADDRLP4 0
INDIRI4
ARGI4
ADDRGP4 buffer
ARGP4
CNSTI4 64
ARGI4
ADDRGP4 trap_Argv
CALLI4
pop
ADDRGP4 buffer
ARGP4
ADDRGP4 trap_Print
CALLI4
pop
ADDRGP4 line_end
ARGP4
ADDRGP4 trap_Print
CALLI4
pop
ADDRLP4 0
ADDRLP4 0
INDIRI4
CNSTI4 1
ADDI4
ASGNI4
ADDRGP4 $word
JUMPV

LABELV $done
ADDRLP4 0
INDIRI4
RETI4
endproc vmMain 4 12
