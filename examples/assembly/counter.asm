; Each call of vmMain adds its first word to a count in memory, and returns the sum.
data
LABELV count
byte 4 0

code
proc vmMain 0 0
ADDRGP4 count
ADDRGP4 count
INDIRI4
ADDRFP4 0
INDIRI4
ADDI4
ASGNI4
ADDRGP4 count
INDIRI4
RETI4
endproc vmMain 0 0
