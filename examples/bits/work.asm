; Bank 2 of page 8: functions on the 32 bits of whole numbers from 0 to 4294967295. LAST X is the old X; a function of two
; numbers takes both from the stack.
        CON 00D         ; the same words as in bank 1, up to the jump of the last function
        CON 00D
        ENTRY :AND
        ENTRY :OR
        ENTRY :XOR
        ENTRY :NOT
        ENTRY :SHL
        ENTRY :SHR
        ENTRY :BITS
        ENTRY :HEX
        ENTRY :HTOX
        ENTRY :DECODE
        ENTRY :MANT
        ENTRY :EXPO
        ENTRY :ALEN
        CON 000
        CON 000

        NAME "AND"
AND:    ENBANK2
        ?NC GO :DOAND
        NAME "OR"
OR:     ENBANK2
        ?NC GO :DOOR
        NAME "XOR"
XOR:    ENBANK2
        ?NC GO :DOXOR
        NAME "NOT"
NOT:    ENBANK2
        ?NC GO :DONOT
        NAME "SHL"
SHL:    ENBANK2
        ?NC GO :DOSHL
        NAME "SHR"
SHR:    ENBANK2
        ?NC GO :DOSHR
        NAME "BITS"
BITS:   ENBANK2
        ?NC GO :DOBITS
        NAME "HEX"
HEX:    ENBANK1
        CON 000
        CON 000
        NAME "HTOX"
HTOX:   ENBANK1
        CON 000
        CON 000
        NAME "DECODE"
DECODE: ENBANK1
        CON 000
        CON 000
        NAME "MANT"
MANT:   ENBANK1
        CON 000
        CON 000
        NAME "EXPO"
EXPO:   ENBANK1
        CON 000
        CON 000
        NAME "ALEN"
ALEN:   ENBANK1
        CON 000
        CON 000
BACK:   ENBANK1         ; the next word, RTN, is read in bank 1
        CON 000

DOAND:  ?NC XQ :PAIR
        C=C AND A
        JNC :RESULT2

DOOR:   ?NC XQ :PAIR
        C=C OR A
        JNC :RESULT2

DOXOR:  ?NC XQ :PAIR
        N=C
        C=C OR A
        B<>C ALL        ; B = the bits of one or both
        C=N
        C=C AND A       ; C = the bits of both
        A<>B ALL
        A=A-C ALL
        A<>C ALL

; The end of a function of two numbers: C in binary replaces X and Y, and the stack drops.
RESULT2: ?NC XQ :DECIMAL
        ?NC XQ :NUMBER
        M=C
        READ :X
        WRIT :L
        READ :Z
        WRIT :Y
        C=0 ALL
        RAM SLCT        ; READ 0 does not exist: READ DATA reads T, because 000 is selected
        READ DATA
        WRIT :Z
        C=M
        WRIT :X
        ?NC GO :BACK

DONOT:  ?NC XQ :SINGLE
        R= 7
        C=-C-1 R<       ; in base 16 each digit x becomes 15 - x; the carry is always set
        JC :RESULT1

DOSHL:  ?NC XQ :SINGLE
        C=C+C ALL
        R= 8
        C=0 @R          ; the bit that was shifted out
        JNC :RESULT1

DOSHR:  ?NC XQ :SINGLE
        C=C+C ALL       ; three bits to the left,
        C=C+C ALL
        C=C+C ALL
        RSHFC ALL       ; and four to the right
        ?NC GO :RESULT1

DOBITS: ?NC XQ :SINGLE
        RCR 8           ; the first bit is the highest of place 13
        A=0 ALL
BIT:    ?C#0 ALL
        JNC :COUNTED
        C=C+C ALL       ; the carry is the next bit
        JNC :BIT
        A=A+1 S&X
        JNC :BIT
COUNTED: A<>C ALL

; The end of a function of one number: C in binary replaces X.
RESULT1: ?NC XQ :DECIMAL
        ?NC XQ :NUMBER
        M=C
        READ :X
        WRIT :L
        C=M
        WRIT :X
        ?NC GO :BACK

; C = X in binary.
SINGLE: C=0 ALL
        RAM SLCT
        READ :X
        ?NC GO :WORD

; A = Y in binary, and C = X. With the calls in it, all four return addresses are used.
PAIR:   ?NC XQ :SINGLE
        M=C
        READ :Y
        ?NC XQ :WORD
        A=C ALL
        C=M
        RTN
